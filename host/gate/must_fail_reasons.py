#!/usr/bin/env python3
"""Checks why each wrong program was refused.

    must_fail_reasons.py PRINTED           by what `rt ci` or `rt must-fail` printed, kept in the file PRINTED
    must_fail_reasons.py --whole [CRATE[/FILE.edit] ..]
                                           by all that `rt check` prints of each edit, or of those named, tried once more
                                           on a copy of the repository outside the checkout

edits.py has the form of an edit. Each wrong program says what is false then, what refuses it, and argues it or has a
witness. rt tries an edit's file as a whole, and prints its first error alone: that has to be a refusal, by one of those
that the file's wrong programs name in `refused-by`, and not about names, paths, layout or parsing: such an edit would
only make the proofs unfit, and show nothing. With --whole all errors are held to that, and all that a wrong program
names must have refused it. Several may share a
file, and so a check, if the functions that refuse one see nothing of what the others change: its own body and contract, the
constants that it names and the contracts of the functions that it calls are all that a function sees of its crate's code.
Edits of definitions may share one if no law that refuses one rests on what the others change (laws.py). An edit of anything
else, as a type, stands alone. Every public function, those of impls of traits too, has two wrong programs that are refused by its own goals. The last line is 'N passed, M failed': tests of this script on samples, and one for each edit's file, each wrong program,
each public function, and each source, of which every function must have been seen; and one that no two wrong programs
have one label.
"""
import multiprocessing
import os
import re
import shutil
import subprocess
import sys

sys.dont_write_bytecode = True
from edits import Program, edits, function_of, programs_of
from laws import Specs, specs_of
from scratch import scratch
from sources import functions, functions_of, without_comments
from tally import ROOT, report

WANTED = 2  # wrong programs of each public function
FUNCTION = re.compile(r'\bfn\s+\w')
ANY_ERROR = re.compile(r'^\S+: error.*(?:\n[ \t].*)*', re.M)  # a long message goes on in indented lines
OWN_ERROR = re.compile(r'^(\S+): error: `([^`]+)`: (.*)$', re.S)
CODE = re.compile(r'`(?!mod`)[^`]*`')  # but for the word `mod`
OF_FUNCTION = re.compile(r'(?:^|/)proofs/(\S+)/(?:Answers|Invariants|Proof)\.antt(?::\d+)*$')
# An open goal, by the line of its function; and all of a function for which no answers are written.
OPEN_GOAL = re.compile(r'^note: (?:\./)?(src/\S+?\.rt):(\d+):\d+: (?:it is not proved that [^\n]*?|`search` found no proof )\(`([^`\n]*)(`?)', re.M)
NO_ANSWERS = re.compile(r'^fn \S+: [^\n]*\bexpected answers in (?:\./)?proofs/(\S+)/Answers\.antt; `search` did not prove ((?:`[^`\n]+`(?:, )?)+)', re.M)
# What rt says of an edit's file.
OF_EDIT = re.compile(r'^(?:rt: )?must-fail (\w+/\S+\.edit): (.*)$', re.M)
REFUSED = 'refused, as it must be'
ONLY_NAMES = 'only because a proof file names what the edit took away'
PARTS = ('src', 'specs', 'proofs')
# A law whose proof no longer holds, where rt says no more than that.
REJECTED = re.compile(r'error: `([^`]+)` is not admitted: rejected$')
AFTER_ANOTHER = 'was not admitted'
REMARK = 'not in scope here, so what is shown'  # of a type that is printed, and no error
CONSTANT = re.compile(r'^[ \t]*(?:pub\s+)?const\s+(\w+)\b.*?;$', re.M | re.S)
ADDED_IMPORTS = re.compile(r'(?: ghost use [^;]*;)+')
NO_FACT = ('not in scope', 'can be named from here', 'has no field', 'parse', 'layout', 'already a name', '`mod` line')


# ---- what rt says

def refuser_of(name, listed):
    """A name of `refused-by` so that two of them can be compared: the function and its goal; of a law no function."""
    return function_of(name, listed), name.partition(':')[2] or name


def spelled(refuser):
    return ':'.join(word for word in refuser if word)


def open_goals(printed, listed):
    """The goals that are told to be open, as `refuser_of`; a goal's name may be cut short, and has then … at its end."""
    for file, line, goal, end in OPEN_GOAL.findall(printed):
        owner = [f.path for f in listed if f.file == file and f.lines[0] <= int(line) <= f.lines[1]]
        yield (owner[0] if owner else file), goal + ('' if end else '…')
    for folder, goals in NO_ANSWERS.findall(printed):
        for goal in re.findall('`([^`]+)`', goals):
            yield refuser_of('%s:%s' % (folder, goal), listed)


def refused_in(printed, listed):
    """What a log refuses for a fact, as `refuser_of`, and None; or what is wrong with one of its errors."""
    refused = set(open_goals(printed, listed))
    for error in ANY_ERROR.findall(printed):
        own = OWN_ERROR.match(REJECTED.sub(r'error: `\1`: rejected', error))
        if not own:
            return refused, 'an error that names no declaration: %s' % error[:200]
        place, name, message = own.groups()
        said = ' '.join(CODE.sub('``', message).split()).replace(REMARK, '')  # the words of the message, without the code in it
        if AFTER_ANOTHER in said:
            continue
        if any(words in said for words in NO_FACT):
            return refused, 'an error about names or layout: %s' % error[:300]
        function = OF_FUNCTION.search(place)
        refused.add(refuser_of('%s:%s' % (function.group(1), name) if function else name, listed))
    return refused, None


def unmet(stated, printed, listed=()):
    """None if the printed log refuses each stated declaration for a fact, else what is wrong."""
    refused, wrong = refused_in(printed, listed)
    if wrong:
        return wrong
    missing = [name for name in stated if refuser_of(name, listed) not in refused]
    by = ', '.join(sorted(map(spelled, refused))) or 'nothing'
    return 'not refused by %s, but by %s' % (', '.join(missing), by) if missing else None


def unfit_first(stated, said, listed=()):
    """None if what rt says of an edit's file is a refusal whose first error is of one of the stated declarations, else what is wrong."""
    if not said.startswith(REFUSED) or ONLY_NAMES in said:
        return said[:300]
    error = re.sub(r'^%s(?: \([^)]*\))?:? ?' % REFUSED, '', said)
    refused, wrong = refused_in(error, listed)
    if wrong:
        return wrong
    known = [refuser_of(name, listed) for name in stated]
    for owner, goal in refused:
        if (owner, goal) in known or goal.endswith('…') and any(o == owner and g.startswith(goal[:-1]) for o, g in known):
            return None
    return 'refused by %s, which no wrong program of it names' % (', '.join(map(spelled, refused)) or 'nothing that rt names: %s' % said[:200])


# ---- the edits once more

def copy_repository(to):
    """A copy of what rt reads, but the must-fail edits."""
    shutil.copy(ROOT / 'crates.txt', to / 'crates.txt')
    for crate in sorted((ROOT / 'crates').iterdir()):
        for part in PARTS:
            shutil.rmtree(to / 'crates' / crate.name / part, ignore_errors=True)
            if (crate / part).is_dir():
                shutil.copytree(crate / part, to / 'crates' / crate.name / part)


def tried_again(task):
    """The edit's name, and what `rt check` prints of the crate with it; or None and why it cannot be applied."""
    crate, file, programs = task
    to = scratch('edits') / ('%d' % (multiprocessing.current_process()._identity or (0,))[0])
    if not (to / 'crates.txt').exists():
        to.mkdir(exist_ok=True)
        copy_repository(to)
    name, texts = '%s/%s' % (crate, file), {}
    try:
        for path, old, new in (change for program in programs for change in program.changes()):
            place = to / 'crates' / crate / path
            was = place.read_text(encoding='utf-8')
            texts.setdefault(place, was)
            if was.count(old) != 1:
                return name, None, '%s has %r %d times' % (path, old, was.count(old))
            place.write_text(was.replace(old, new), encoding='utf-8')
        done = subprocess.run(['rt', 'check'], cwd=to / 'crates' / crate, stdin=subprocess.DEVNULL, stdout=subprocess.PIPE, stderr=subprocess.STDOUT, check=False)
        return name, done.returncode, done.stdout.decode('utf-8', 'replace')
    except OSError as error:
        return name, None, str(error)
    finally:
        for place, was in texts.items():
            place.write_text(was, encoding='utf-8')


def all_tried(wanted):
    """What each edit's file comes to by all errors of its check: its name, and what tried_again gives."""
    shutil.rmtree(scratch('edits'), ignore_errors=True)
    tasks = [(crate.name, file.name, programs) for crate in sorted(ROOT.glob('crates/*')) for file, programs in edits(crate)]
    tasks = [task for task in tasks if not wanted or task[0] in wanted or '%s/%s' % task[:2] in wanted]
    with multiprocessing.Pool(max(1, min(os.cpu_count() or 1, len(tasks)))) as pool:
        yield from pool.imap_unordered(tried_again, tasks, chunksize=4)


# ---- what an edit says

def unsaid(program):
    """None if a wrong program says all that it should, else what is missing."""
    if not program.label:
        return 'it has no heading `== LABEL`'
    if not re.search(r'^-- False then: *\S', program.text, re.M):
        return 'it has no `-- False then:`'
    if not program.refusers():
        return 'it states no `refused-by:`'
    return None if program.stated('argued') or program.stated('witness') else 'it has neither `argued:` nor `witness:`'


def count(text, name):
    """How often the text has this word."""
    return len(re.findall(r'\b%s\b' % name, text))


def names(text, name):
    return count(text, name) > 0


def may_call(function, name, texts):
    """A function's body names a function of its crate: it has the word, and its file does not take it from another crate."""
    taken = re.search(r'^use (?!crate\b)\w+::(?:\w+::)*%s;' % name, texts[function.file], re.M)
    return not taken and names(function.code(texts), name)


def seen_by(change, listed, texts):
    """The paths of the functions, of those listed, that see a change; None where others may, as types do. The texts have no comments."""
    file, old, new = change
    if new.startswith(old) and ADDED_IMPORTS.fullmatch(new[len(old):]):
        return set()
    at = texts.get(file, '').find(old)
    if at < 0:
        return None
    for f in listed:
        if f.file == file and f.start < at and at + len(old) < f.body[1]:
            return {f.path, *(g.path for g in listed if at < f.body[0] and may_call(g, f.path.split('/')[-1], texts))}
    for constant in CONSTANT.finditer(texts[file]):
        if constant.start() <= at and at + len(old) <= constant.end():
            namers = [f for f in listed if names(f.head + f.code(texts), constant.group(1))]
            inside = sum(count(f.head + f.code(texts), constant.group(1)) for f in namers)
            everywhere = sum(count(text, constant.group(1)) for text in texts.values())
            return {f.path for f in namers} if everywhere == inside + 1 else None
    return None


def unfit_functions(program, others, listed, texts):
    """None if no function that refuses a wrong program sees what the others change, else why it may not stand with them."""
    own = {function_of(name, listed) for name in program.refusers()}
    if None in own or None in [seen_by(change, listed, texts) for change in program.changes()]:
        return 'it shares a file, and changes more than functions and their constants'
    for other in others:
        if own & set().union(*[seen_by(change, listed, texts) or set() for change in other.changes()]):
            return 'what refuses it sees what %s changes' % other.label
    return None


def changed_by(program, specs):
    """The declarations that a wrong program changes; None if that cannot be told."""
    found = [specs.changed(*change) for change in program.changes()]
    return None if None in found else set().union(*found)


def unfit_laws(program, others, specs):
    """None if each law that refuses a wrong program rests on what it changes, and on nothing of what the others change."""
    own = changed_by(program, specs)
    for law in program.refusers():
        rests = specs.rests_on(law)
        if own is None or not own & rests:
            return 'it shares a file, and it cannot be told that %s rests on what it changes' % law
        for other in others:
            theirs = changed_by(other, specs)
            if theirs is None or theirs & rests:
                return '%s may rest on what %s changes' % (law, other.label)
    return None


def unfit_together(program, others, listed, texts, specs):
    """None if a wrong program may stand in one file with the others, else why not."""
    if any(function_of(name) for each in (program, *others) for name in each.refusers()):
        return unfit_functions(program, others, listed, texts)
    return unfit_laws(program, others, specs)


# ---- the results

def verdict(program, programs, listed, texts, specs):
    """None if a wrong program says what it should and fits its file, else what is wrong."""
    wrong = unsaid(program)
    if not wrong and len(programs) > 1:
        wrong = unfit_together(program, [p for p in programs if p is not program], listed, texts, specs)
    return wrong


def of_file(programs, said, listed):
    """The result of an edit's file by what rt printed of it."""
    if said is None:
        return 'rt printed nothing of it'
    return unfit_first([name for program in programs for name in program.refusers()], said, listed)


def of_whole(program, status, printed, listed):
    """The result of a wrong program by all that the check of its file printed."""
    if status is None:
        return printed
    if status == 0:
        return 'it is not refused'
    return unmet(program.refusers(), printed, listed)


def unseen(file, text, listed):
    """None if each function of a source's text is among those listed, else how many are not: its wrong programs would not be asked for."""
    there, seen = len(FUNCTION.findall(without_comments(text))), sum(f.file == file for f in listed)
    return None if there == seen else '%d functions, of which %d are seen' % (there, seen)


def repeated(labels):
    """The labels that stand more than once: docs/PROMISES.md names a wrong program by its label alone."""
    return sorted({label for label in labels if labels.count(label) > 1})


def of_crate(crate, said, whole):
    """The results of one crate, by what rt said of its edits' files, or by what their checks printed as a whole."""
    listed = list(functions(crate))
    for source in sorted((crate / 'src').rglob('*.rt')):
        file = str(source.relative_to(crate))
        yield '%s: %s' % (crate.name, file), unseen(file, source.read_text(encoding='utf-8'), listed)
    texts = {f.file: without_comments((crate / f.file).read_text(encoding='utf-8')) for f in listed}
    specs = specs_of(crate)
    counts = {f.path: 0 for f in listed if f.public}
    for file, programs in edits(crate):
        name = '%s/%s' % (crate.name, file.name)
        if said is not None:
            yield str(file.relative_to(ROOT)), of_file(programs, said.get(name), listed)
        for program in programs:
            fault = verdict(program, programs, listed, texts, specs)
            if not fault and name in whole:
                fault = of_whole(program, *whole[name], listed)
            yield '%s: %s' % (file.relative_to(ROOT), program.label), fault
            for path in {function_of(name, listed) for name in program.refusers()} & set(counts):
                counts[path] += 1
    for path, count in counts.items():
        yield '%s: %s' % (crate.name, path), None if count >= WANTED else 'it has %d wrong programs, not %d' % (count, WANTED)


LOGS = [
    (['law'], 'a.antt:1:2: error: `law`: the two types differ\n', True),
    (['law'], 'a.antt:1:2: error: `other`: the two types differ\n', False),
    (['law'], 'a.antt:1:2: error: `law`: `x` was not admitted, so this cannot be checked\n', False),
    (['law'], 'a.antt:1:2: error: `law`: the two types differ\na.antt:2:2: error: `other`: `y` is not in scope\n', False),
    (['law'], 'a.antt:1:2: error: `law`: the two types differ\na.antt:2:2: error: `other`: `parsed` was not admitted\n', True),
    (['law'], 'a.antt:1:2: error: `law`: record `lts.Start` has no field `before`\n', False),
    (['law'], 'a.antt:1:2: error: `law`: record `lts.Start`\n  has no\n  field `before`\nfn f: not proved\n', False),
    (['law'], 'a.antt:1:2: error: `law`: the two types differ, where one has `x`\n  and `y`\n  was not admitted\n', False),
    (['law'], 'a.antt:1:2: error: `law`: one has `is not in scope`\n  and the other `specs.layout`\nnote: layout\n', True),
    (['law'], 'a.antt:1:2: error: `law`: a `mod` line is missing\n', False),
    (['law'], 'a.antt:1:2: error: `law`: the two differ\n  `x` is not in scope here, so what is shown does not paste back\n', True),
    (['law'], 'a.antt:1:2: error: `law`: the two differ: name it on an `unfold` line\n', True),
    (['m/f:returns'], './proofs/m/f/Answers.antt:1:2: error: `returns`: the two types differ\n', True),
    (['m/f:returns'], './proofs/m/g/Answers.antt:1:2: error: `returns`: the two types differ\n', False),
    (['returns'], './proofs/m/f/Answers.antt:1:2: error: `returns`: the two types differ\n', False),
    (['g:returns-then'], 'note: src/lib.rt:18:1: it is not proved that what the function ensures holds (`returns-then`); the facts\n', True),
    (['g:overflow_add-x'], 'note: src/lib.rt:18:1: it is not proved that the sum fits its type (at a range `..=n`, `n + 1`) (`overflow_add-x`); the facts\n', True),
    (['g:returns'], 'note: src/lib.rt:18:1: it is not proved that the sum fits its type (at a range `..=n`, `n + 1`) (`overflow_add-x`); the facts\n', False),
    (['g:invariant_of-f'], 'note: src/lib.rt:18:1: `search` found no proof (`invariant_of-f`)\n', True),
    (['g:returns'], 'note: src/lib.rt:18:1: it is not proved that what the function ensures holds (`returns-then`); the facts\n', False),
    (['f:returns-then'], 'note: src/lib.rt:18:1: it is not proved that what the function ensures holds (`returns-then`); the facts\n', False),
    (['g:a', 'g:b-1'], 'fn c::g: no proof: expected answers in ./proofs/g/Answers.antt; `search` did not prove `a`, `b-1`\n', True),
    (['g:a', 'g:c'], 'fn c::g: no proof: expected answers in ./proofs/g/Answers.antt; `search` did not prove `a`, `b-1`\n', False),
]
FIRST = [  # what rt says of a file whose wrong programs name f:returns, g:returns-then and law
    ('refused, as it must be: ./proofs/f/Answers.antt:1:2: error: `returns`: the two types differ', True),
    ('refused, as it must be: ./proofs/f/Answers.antt:1:2: error: `exits`: the two types differ', False),
    ('refused, as it must be: ./proofs/L.antt:1:2: error: `law`: the two types differ only where one has `a', True),
    ('refused, as it must be: ./proofs/L.antt:1:2: error: `law`: `x` is not in scope', False),
    ('refused, as it must be: ./proofs/L.antt:1:2: error: `other`: the two types differ', False),
    ('refused, as it must be: note: src/lib.rt:18:1: it is not proved that it holds (`returns-then`); the', True),
    ('refused, as it must be: note: src/lib.rt:18:1: it is not proved that it holds (`returns-th', True),
    ('refused, as it must be: note: src/lib.rt:18:1: it is not proved that it holds (`returns-el', False),
    ('refused, as it must be: note: src/lib.rt:9:1: it is not proved that it holds (`returns-then`); the', False),
    ('refused, as it must be (only by a limit of the prover, which gave no verdict): ./proofs/L.antt:1:2: error: `law`: steps', True),
    ('refused, as it must be (only because a proof file names what the edit took away, so this says little): ./proofs/L.antt:1:2: error: `law`: x', False),
    ('refused, as it must be', False),
    ('NOT REFUSED: the crate is still proved with this edit', False),
    ("BAD EDIT: an 'old:' text is in src/lib.rt 0 times, and not once", False),
]
OWNERS = [('law', None), ('f:returns', 'f'), ('m/f:returns-2', 'm/f'), ('m/+w:a-b-returns', 'm/a'), ('m/+w:a_b-returns', 'm/a_b'),
          ('m/+w:decreases-a_b', 'm/a_b'), ('+w:m::a-returns', 'm/a'), ('m/+v:a-returns', 'm/+v')]
CYCLIC = '#[cycle(w)]\npub fn a() {}\n#[cycle(w)]\npub fn a_b() {}\nfn c() {}\n'
SOURCE = '''ghost use a.{b};
use other::k;
const LIMIT: u8 = 1;
const SHARED: u8 = 1;
const LEAST: u8 = 1;
const MOST: u8 = LEAST;
fn f(x: u8) -> u8
    ensures { result ≡ 2 + x }
{
    if x == b'}' { return 2; }
    if x == LIMIT { return 1; }
    x & SHARED
}
pub fn g(x: u8) -> u8
    ensures { result ≡ 0 + x }
{
    k(f(x)) & SHARED
}
fn h() -> u8
    ensures { result ≡ 3 }
{
    3
}
'''
F, G = 'refused-by: f:returns\nfile: src/lib.rt\nold: return 1\n', 'refused-by: g:returns\nfile: src/lib.rt\nold: k(f(x))\n'
LIMIT = F.replace('return 1', 'LIMIT: u8 = 1') + 'new: LIMIT: u8 = 2\n'
H = 'refused-by: h:returns\nfile: src/lib.rt\nold:     3\nnew:     4\n'
SAID = '-- False then: 1.\nargued: so.\n'
TOGETHER = [  # the texts of the wrong programs of one file, and whether each may stand there
    (F + 'new: return 2\n', G.replace('k(', '    k(') + 'new: x\n', True),
    (F + 'new: return 2\n', F.replace('return 1', 'x == LIMIT') + 'new: true\n', False),
    (LIMIT, G.replace('k(', '    k(') + 'new: x\n', True),
    (LIMIT, F + 'new: return 2\n', False),
    (LIMIT.replace('LIMIT', 'LEAST'), H, False),
    (H, LIMIT.replace('LIMIT', 'SHARED'), True),
    (G + 'new: x\n', LIMIT.replace('LIMIT', 'SHARED'), False),
    (F.replace('f:returns', 'g:returns') + 'new: return 2\n', F + 'new: return 2\n', True),
    (F + 'new: return 2\n', F.replace('f:returns', 'g:returns') + 'new: return 2\n', False),
    (G + 'new: x\n', F.replace('return 1', 'result ≡ 2 + x') + 'new: result ≡ result\n', False),
    (H, F.replace('return 1', 'result ≡ 2 + x') + 'new: result ≡ result\n', True),
    (F + 'new: return 2\n', G.replace('k(f(x))', 'result ≡ 0 + x') + 'new: result ≡ result\n', True),
    (G.replace('k(f(x))', 'ghost use a.{b};') + 'new: ghost use a.{b}; ghost use a.{c};\nold: result ≡ 0 + x\nnew: c\n', H, True),
    (G.replace('k(f(x))', 'ghost use a.{b};') + 'new: ghost use a.{c};\nold: result ≡ 0 + x\nnew: c\n', H, False),
    (F.replace('f:returns', 'law') + 'new: return 2\n', H, False),
]
SPECS = Specs({
    'specs/A.antt': 'pub f : ℕ\nf = 1\n\n-- of f\npub g : ℕ\ng = 2\n\npub record R : Type where\n  pub field : ℕ\n\npub ◌>>=◌ : ℕ\n◌>>=◌ = 3\n',
    'specs/B.antt': 'unfoldable pub use Rattle.c.specs.A.{f as h}\nuse Rattle.c.specs.A as a\nuse Rattle.c.specs.A\n\n'
                    'pub k : ℕ\nk = a.g\n\npub m : ℕ\nm = A.f\n\npub w : ℕ\nw = Rattle.c.specs.A.g\n',
    'proofs/Laws.antt': 'use Rattle.c.specs.A.{f, g, ◌>>=◌}\nuse Rattle.c.specs.B.{h, k, m, w}\n\nlaw_f : f ≡ 1\nlaw_f = refl\n\n'
                       'law_g : g ≡ 2\nlaw_g = refl\n\nlaw_h : 1 ≡ h\nlaw_h = refl\n\nlaw_k : 2 ≡ k\nlaw_k = refl\n\nlaw_m : 1 ≡ m\nlaw_m = refl\n\nlaw_w : 2 ≡ w\nlaw_w = refl\n\nlaw_r : ℕ\nlaw_r = x.field\n\n'
                       'law_do : ℕ\nlaw_do = do\n  f\n\nlaw_both : ℕ\nlaw_both = lemma (law_f, law_g)\n',
}, 'c')
RESTS = [  # a law, and which of these it rests on: f, g, field, >>=
    ('law_f', 'f'), ('law_g', 'g'), ('law_h', 'f'), ('law_k', 'g'), ('law_m', 'f'), ('law_w', 'g'), ('law_r', 'field'), ('law_do', 'f >>='), ('law_both', 'f g'), ('law_none', ''),
]
OF_F, OF_G = 'file: specs/A.antt\nold: f = 1\nnew: f = 2\n', 'file: specs/A.antt\nold: g = 2\nnew: g = 1\n'
LAWS_TOGETHER = [  # as TOGETHER, of edits of definitions
    ('refused-by: law_f\n' + OF_F, 'refused-by: law_g\n' + OF_G, True),
    ('refused-by: law_g\n' + OF_G, 'refused-by: law_f\n' + OF_F, True),
    ('refused-by: law_both\n' + OF_F, 'refused-by: law_g\n' + OF_G, False),
    ('refused-by: law_f\n' + OF_F, 'refused-by: law_f\n' + OF_F, False),
    ('refused-by: law_f\n' + OF_G, 'refused-by: law_g\n' + OF_G, False),
    ('refused-by: law_f\n' + OF_F, 'refused-by: law_g\nfile: src/lib.rt\nold: return 1\nnew: return 2\n', False),
    ('refused-by: law_k\nfile: specs/B.antt\nold: use Rattle.c.specs.A.{f as h}\nnew: use Rattle.c.specs.A.{g, f as h}\n' + OF_G, 'refused-by: law_f\n' + OF_F, True),
    ('refused-by: law_k\nfile: specs/B.antt\nold: use Rattle.c.specs.A as\nnew: use Rattle.c.specs.C as\n' + OF_G, 'refused-by: law_f\n' + OF_F, False),
]


def samples():
    """The results of the tests of this script."""
    listed = list(functions_of(SOURCE, 'src/lib.rt'))
    for stated, printed, good in LOGS:
        yield None if (unmet(stated, printed, listed) is None) == good else '%r is judged wrongly' % printed
    for said, good in FIRST:
        yield None if (unfit_first(['f:returns', 'g:returns-then', 'law'], said, listed) is None) == good else '%r is judged wrongly' % said
    cyclic = list(functions_of(CYCLIC, 'src/m.rt', ('m',)))
    for refuser, owner in OWNERS:
        yield None if function_of(refuser, cyclic) == owner else '%s is of %r' % (refuser, function_of(refuser, cyclic))
    texts = {'src/lib.rt': without_comments(SOURCE)}
    yield None if [(f.path, f.public) for f in listed] == [('f', False), ('g', True), ('h', False)] else 'the functions are %r' % listed
    for text, shown in (('pub fn h() {}\n', False), ('pub extern "C" fn h() {}\n', True)):
        inner = list(functions_of(text, 'src/m.rt', ('m',), False))
        yield None if [(f.path, f.public) for f in inner] == [('m/h', shown)] else 'in a private module %r is judged wrongly' % text
    for text, path, shown in (('impl m::T<A> for B {\n    fn h() {}\n}\n', 'm/BTA/h', True), ('impl B {\n    fn h() {}\n}\n', 'm/B/h', False)):
        for public in (True, False):
            inner = list(functions_of(text, 'src/m.rt', ('m',), public))
            yield None if [(f.path, f.public) for f in inner] == [(path, shown and public)] else 'of an impl %r is judged wrongly' % text
    for name, called in (('f', True), ('h', False), ('k', False)):
        yield None if may_call(listed[1], name, texts) == called else 'the calls of %s are judged wrongly' % name
    for more, good in (('', True), ('// fn h()', True), ('pub(crate) fn h() {}\n', False)):
        also = list(functions_of(SOURCE + more, 'src/lib.rt'))
        yield None if (unseen('src/lib.rt', SOURCE + more, also) is None) == good else '%r is judged wrongly' % more
    for first, second, good in TOGETHER + LAWS_TOGETHER:
        programs = programs_of('== a\n%s== b\n%s' % (first, second))
        yield None if (unfit_together(programs[0], programs[1:], listed, texts, SPECS) is None) == good else '%r is judged wrongly' % first
    for law, words in RESTS:
        names_found = set().union(*[d.names | d.fields for d in SPECS.rests_on(law)]) & {'f', 'g', 'field', '>>='}
        yield None if names_found == set(words.split()) else '%s is said to rest on %s' % (law, ', '.join(sorted(names_found)))
    for line in (SAID + F).splitlines()[:3]:
        yield None if unsaid(Program('a', (SAID + F).replace(line, ''))) else 'nothing is missed without %r' % line
    yield None if repeated(['a', 'b', 'a']) == ['a'] and not repeated(['a', 'b']) else 'repeated labels are judged wrongly'
    yield None if unsaid(Program('', SAID + F)) and not unsaid(Program('a', SAID + F)) else 'what is said is judged wrongly'


def results(words):
    for fault in samples():
        yield 'sample', fault
    crates = sorted(ROOT.glob('crates/*'))
    labels = [program.label for crate in crates for _, programs in edits(crate) for program in programs]
    yield 'labels', ', '.join(repeated(labels)) or None
    said, whole = None, {}
    if words and words[0] == '--whole':
        whole = {name: (status, printed) for name, status, printed in all_tried(words[1:])}
    elif words:
        with open(words[0], encoding='utf-8', errors='replace') as file:
            said = dict(OF_EDIT.findall(re.sub(r'^\d+ (?=rt: )', '', file.read(), flags=re.M)))
    for crate in crates:
        yield from of_crate(crate, said, whole)


if __name__ == '__main__':
    report(results(sys.argv[1:]))
