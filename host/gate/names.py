#!/usr/bin/env python3
"""Checks that what the documents name is there.

In every document but the papers as given, a code span such as `proofs/Laws/Limit.antt: same_end` names
declarations of a file under crates/model, and one such as `syntax/specs/Read.antt: read` those of a file under another
crate (without `specs/` or `proofs/` it is a file of one of the two); a link names a file or a folder, beside the document or from the root, and
so does a code span that looks like a path of the repository; a word such as (*step_not_taken*) in brackets names a
wrong program by its heading in a must-fail edit. The last line is 'N passed, M failed': a test of this script on a sample, and one for each name.
"""
import re
import sys

sys.dont_write_bytecode = True
from edits import edits
from tally import ROOT, report

CRATES = ROOT / 'crates'
SPAN = re.compile(r'`(?:([a-z]\w*)/)?((?:specs|proofs)/[\w/]+\.antt|[A-Z]\w+(?:/[A-Z]\w+)?\.antt): ([^`]+)`')
PARTS = ('specs/', 'proofs/')
FOLDERS = '|'.join(sorted(p.name for p in ROOT.iterdir() if p.is_dir() and p.name not in ('.git', 'target')))
PATH = re.compile(r'`((?:%s)/[\w./-]+)`' % FOLDERS.replace('.', r'\.'))
LINK = re.compile(r'\]\((?!https?:)([^)#]+)(?:#[^)]*)?\)')
GIVEN = [p for p in (ROOT / 'docs' / 'papers').glob('0*.md')]  # papers that stand as given
PROGRAM = re.compile(r'\(\*(\w+)\*\)')
PROGRAMS = {program.label for crate in CRATES.iterdir() for _, programs in edits(crate) for program in programs}

TEXT_OR_COMMENT = re.compile(r'"(?:\\.|[^"\\])*"|(?<![^\s(){}.;,@"«»])--[^\n]*|\{-.*?-\}', re.S)
MARKS = r'\s*(?:(?:unfoldable|abbrev|pub)\s+)*'
TYPE = re.compile(MARKS + r'(?:data|record)\s+([^\s:(){}]+)')
SIGNATURE = re.compile(MARKS + r'((?:(?![=:](?:\s|$))[^\s(){}.;,@"]+\s+)+):(?:\s|$)')  # several names may share a signature
OPENING = re.compile(MARKS + r'(?:data|record|module|mutual)\b')
OPENED = re.compile(r'\bwhere\s*$|\bmutual\s*$')


def without_comments(source):
    """A source of antt without its comments. In a quoted text nothing begins one."""
    return TEXT_OR_COMMENT.sub(lambda m: m.group(0) if m.group(0).startswith('"') else re.sub(r'[^\n]', ' ', m.group(0)), source)


def heads(source):
    """The lines at which declarations, constructors and fields begin; not what follows a head, nor what is local to a definition."""
    blocks = [[-1, 0]]  # the indents of each open block's head and, once known, of its items
    opening = None  # the indent of a data type, record or module whose `where` is still to come
    for line in without_comments(source).splitlines():
        if not line.strip():
            continue
        indent = len(line) - len(line.lstrip())
        while indent <= blocks[-1][0] or (blocks[-1][1] is not None and indent < blocks[-1][1]):
            blocks.pop()
        if blocks[-1][1] is None:
            blocks[-1][1] = indent
        if indent == blocks[-1][1]:
            yield line.strip()
            opening = indent if OPENING.match(line) else None
        if opening is not None and OPENED.search(line):
            blocks.append([opening, None])
            opening = None


def declares(source, name):
    """A data type, a record, a signature, a field or a constructor of this name stands in the source."""
    for head in heads(source):
        found = TYPE.match(head) or SIGNATURE.match(head)
        if found and name in found.group(1).split():
            return True
    return False


def declared(text):
    """(name, whether it is there) for each declaration that a document names."""
    for m in SPAN.finditer(text):
        crate = m.group(1) if m.group(1) and m.group(1) not in ('specs', 'proofs') else 'model'
        files = [m.group(2)] if m.group(2).startswith(PARTS) else [part + m.group(2) for part in PARTS]
        sources = [(CRATES / crate / file).read_text(encoding='utf-8') for file in files if (CRATES / crate / file).exists()]
        for name in m.group(3).split(','):
            yield '%s/%s: %s' % (crate, m.group(2), name.strip()), any(declares(source, name.strip()) for source in sources)


def files(document, text):
    """The same for each file, folder and wrong program."""
    for m in PATH.finditer(text):
        yield m.group(1), (ROOT / m.group(1)).exists()
    for m in LINK.finditer(text):
        yield m.group(1), (document.parent / m.group(1)).exists()
    for m in PROGRAM.finditer(text):
        yield m.group(1), m.group(1) in PROGRAMS


SAMPLE = '''
-- gone : ℕ
pub data Kind (inner : ℕ) : Type 0 where
  yes no : Kind inner  -- maybe : Kind
  other : (bound : ℕ) → Kind bound

pub record Pair
    (left : ℕ)
    : Type 0 where
  pub first : ℕ

{- hidden : ℕ
-}
module _ (given : ℕ) where
  abbrev pub law : (n : ℕ) {m : ℕ}
      → (k : ℕ)
      next : ℕ
  law n = helper "-- said : ℕ" n
    where
    helper : ℕ → ℕ
    helper n = n

unfoldable mutual
  -- a : ℕ
  pub even : ℕ → Bool
  even n = let half : ℕ in true

  pub data Tree : Type 0 where
    leaf : Tree

infixl 10 ◌>>=◌
unfoldable abbrev pub ◌>>=◌ : ℕ
last_law :
    (far : ℕ) → ℕ
'''
STANDING = 'Kind yes no other Pair first law even Tree leaf ◌>>=◌ last_law'
ABSENT = 'gone inner maybe bound left hidden _ given n m k next said helper a half far pub data Type where mutual infixl Bool kind'


def samples():
    """The results of the test on the sample."""
    for name in STANDING.split():
        yield 'sample', None if declares(SAMPLE, name) else '`%s` is not found' % name
    for name in ABSENT.split():
        yield 'sample', '`%s` is no declaration' % name if declares(SAMPLE, name) else None


def results():
    yield from samples()
    documents = [p for p in sorted(ROOT.rglob('*.md')) if p.relative_to(ROOT).parts[0] != 'target' and p not in GIVEN]
    for document in documents:
        text = document.read_text(encoding='utf-8')
        for name, there in [*declared(text), *files(document, text)]:
            yield document.relative_to(ROOT), None if there else 'there is no %s' % name


if __name__ == "__main__":
    report(results())
