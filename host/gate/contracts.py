#!/usr/bin/env python3
"""Checks the contracts of public Rattle functions, as text.

Every `pub fn`, and every function of an impl of a trait, states an `ensures` that names its result or a parameter (one
that names none promises nothing); in an impl of a trait the law `ghost NAME_gives` serves too, if it names what the
function gives. An exported C function states no `requires`; each `&mut` parameter is named in an `ensures`, since a
promise covers the last bytes of every lent area. A check of the sources' shape: what the contracts mean is proved by
`rt ci`. The last line is 'N passed, M failed': a test of this script on samples, and one for each public function.
"""
import re
import sys

sys.dont_write_bytecode = True
from sources import functions_of, skip
from tally import ROOT, report

def clauses(head, word):
    """The texts of the clauses of one kind."""
    found = []
    for m in re.finditer(r'\b%s\b\*?(?:\s+\w+)?\s*\{' % word, head):
        found.append(head[m.end():skip(head, m.end() - 1, '{', '}') - 1])
    return found


def parameters(head):
    """The names of a function's parameters."""
    at = head.find('(')
    listed = head[at:skip(head, at, '(', ')')] if at >= 0 else ''
    return re.findall(r'(\w+)\s*:(?!:)', listed) + re.findall(r'\bself\b', listed)


def names(promise, name):
    """The promise names this: by itself, not as a field or as a part of a longer name; and of what is lent, not only what it was."""
    return re.search(r"(?<![\w.'◌])«?%s»?(?![\w'◌]|\.old\b)" % re.escape(name), promise)


def promises(head):
    """The texts of the `ensures` that name the result or a parameter."""
    return [said for said in clauses(head, 'ensures') if any(names(said, name) for name in ['result', *parameters(head)])]


def given(law):
    """What the law of an impl's function says, as a list; nothing where it does not name the last of its variables, which is what the function gives."""
    m = re.match(r'\s*λ\s([^.]*)\.\s(.*)', law, re.S)
    variables = m.group(1).split() if m else []
    return [m.group(2)] if variables and names(m.group(2), variables[-1]) else []


def faults(text):
    """(function, fault or None) for each public function of a source text."""
    for function in functions_of(text, ''):
        if not function.public:
            continue
        promised = ' '.join(promises(function.head) + given(function.law))
        fault = None
        if not promised:
            fault = 'no promise'
        elif function.extern and clauses(function.head, 'requires'):
            fault = 'a C entry with a requires'
        else:
            for name in re.findall(r"(\w+)\s*:\s*&(?:'\w+\s+)?mut\b", function.head):
                if not names(promised, name):
                    fault = 'nothing promised of `%s`' % name
                    break
        yield function.path, fault


SAMPLES = [
    ('pub fn f(x: u8) -> u8 { x }', ['no promise']),
    ('pub const fn f(x: u8) -> u8 { x }', ['no promise']),
    ('pub unsafe fn f(x: u8) -> u8 { x }', ['no promise']),
    ('#[unsafe(no_mangle)]\npub const  unsafe extern\t"C" fn f(x: u8) -> u8 { x }', ['no promise']),
    ('fn f(x: u8) -> u8 { x }', []),
    ('#[cfg(y: u8)] pub fn f(x: u8) -> u8\n    ensures { y ≡ 1 }\n{ x }', ['no promise']),
    ('pub fn f(x: u8) -> u8\n    ensures { result ≡ x }\n{ x }', [None]),
    ('pub const fn f() -> u8\n    ensures { result ≡ 1 }\n{ 1 }', [None]),
    ('pub fn f() -> (u8, u8)\n    ensures { result.1 ≡ 1 }\n{ (1, 1) }', [None]),
    ('pub fn f(x: u8) -> u8\n    ensures { ⊤ }\n{ x }', ['no promise']),
    ("pub fn f(x: u8) -> u8\n    ensures { a.x ≡ x' }\n{ x }", ['no promise']),
    ('pub fn f(x: u8) -> u8\n    ensures { ⊤ }\n    ensures named { result ≡ g 1 }\n{ x }', [None]),
    ('pub fn f(x: u8) -> u8\n    ensures* named { ⌜ result ≡ 1 ⌝ }\n{ x }', [None]),
    ('pub fn f(&self)\n    ensures { self.now.at ≡ 0 }\n{ }', [None]),
    ('pub extern "C" fn f(x: u8) -> u8\n    requires { x ≡ 1 }\n    ensures { result ≡ x }\n{ x }', ['a C entry with a requires']),
    ('pub extern\n    "C"  fn f(x: u8) -> u8\n    requires low { x ≡ 1 }\n    ensures { result ≡ x }\n{ x }', ['a C entry with a requires']),
    ('pub fn f(x: u8) -> u8\n    requires { x ≡ 1 }\n    ensures { result ≡ x }\n{ x }', [None]),
    ('pub fn f(a: &mut [u8], n: u8)\n    ensures { n ≡ 0 }\n{ }', ['nothing promised of `a`']),
    ('pub fn f(a: &mut [u8], n: u8)\n    ensures { length a.old ≡ n }\n{ }', ['nothing promised of `a`']),
    ('pub fn f(a: &mut [u8])\n    ensures { a.new ≡ b }\n{ }', [None]),
    ('pub fn f(a_b: &mut u8)\n    ensures { «a_b».new ≡ 1 }\n{ }', [None]),
    ('impl B {\n    fn f(x: u8) -> u8 { x }\n}', []),
    ('impl From<A> for B {\n    ghost from_gives = { λ a b. b ≡ c a };\n\n    fn from(a: A) -> B { c(a) }\n}', [None]),
    ("impl<'a> From<m::A<'a>> for B {\n    fn from(a: m::A<'a>) -> B { c(a) }\n}", ['no promise']),
    ('impl From<A> for B {\n    ghost from_gives = { λ a b. ⊤ };\n\n    fn from(a: A) -> B { c(a) }\n}', ['no promise']),
    ('impl From<A> for B {\n    ghost from_gives = { λ a b. a ≡ a };\n\n    fn from(a: A) -> B { c(a) }\n}', ['no promise']),
    ('impl From<A> for B {\n    ghost into_gives = { λ a b. b ≡ c a };\n\n    fn from(a: A) -> B { c(a) }\n}', ['no promise']),
    ('impl m::T for B {\n    fn f(&self) -> u8\n        ensures { result ≡ 1 }\n    { 1 }\n}', [None]),
    ('impl m::T for B {\n    ghost f_gives = { λ s a r. r ≡ 1 };\n\n    fn f(&self, a: &mut [u8]) -> u8 { 1 }\n}', ['nothing promised of `a`']),
]


def results():
    for text, expected in SAMPLES:
        got = [fault for _, fault in faults(text)]
        yield 'sample', None if got == expected else '%r gives %r' % (text, got)
    for path in sorted(ROOT.glob('crates/*/src/**/*.rt')):
        for name, fault in faults(path.read_text(encoding='utf-8')):
            yield '%s: %s' % (path.relative_to(ROOT), name), fault


report(results())
