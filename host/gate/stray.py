#!/usr/bin/env python3
"""Checks that every file of the crates is one that the toolchain or the gate reads.

A file under crates/ that git does not ignore is a source, a specification, a proof, a must-fail edit, or what a
program is run with, of a crate listed in crates.txt; each crate listed has a folder; and no .rt or .antt file stands
outside crates/, where nothing would prove it (`rt ci` refuses it). The last line is 'N passed, M failed': a test of this
script on samples, and one for each crate listed and each file seen.
"""
import os
import re
import subprocess
import sys

sys.dont_write_bytecode = True
from tally import ROOT, report

READ = re.compile(r'src/.+\.rt|(?:specs|proofs)/.+\.antt|must-fail/[^/]+\.edit|stdin|stdout|args|status|data/.+')
PAGE = re.compile(r'must-fail/[^/]+\.md')  # an edit that is only to be read
SOURCE = re.compile(r'.*\.(?:rt|antt)')


def listed(text):
    """The names of the crates that a text such as crates.txt lists, a line `NAME: deps` or `NAME staticlib: deps` for each."""
    return re.findall(r'^\s*([^\s:#]+)(?:\s+staticlib)?\s*:', text, re.M)


def fault(path, crates, told=''):
    """None if the file of this path, from the root, has its place, else what is wrong. `told` is docs/PORT.md."""
    top, _, below = path.partition('/')
    if top != 'crates':
        return 'stray: a source outside crates/' if SOURCE.fullmatch(path) else None
    name, _, file = below.partition('/')
    if not file:
        return 'stray: a file directly under crates/'
    if name not in crates:
        return 'stray: crates.txt lists no crate `%s`' % name
    if PAGE.fullmatch(file):
        return None if path in told else 'stray: rt tries no such edit, and docs/PORT.md does not name it'
    return None if READ.fullmatch(file) else 'stray: nothing reads it'


def ignored(paths):
    """Those of the paths that git ignores; none where there is no git."""
    try:
        done = subprocess.run(['git', '-c', 'safe.directory=*', 'check-ignore', '-z', '--stdin'], cwd=ROOT,
                              input='\0'.join(paths).encode(), stdout=subprocess.PIPE, check=False)
    except FileNotFoundError:
        return set()
    return set(done.stdout.decode().split('\0'))


def files():
    """The paths, from the root, of the files under crates/ that git does not ignore, and of the sources elsewhere."""
    inside, outside = [], []
    for folder, folders, names in os.walk(ROOT):
        at = os.path.relpath(folder, ROOT)
        if at == '.':
            folders[:] = [name for name in folders if name != '.git']
        linked = [name for name in folders if os.path.islink(os.path.join(folder, name))]
        paths = [os.path.normpath(os.path.join(at, name)) for name in names + linked]
        if at.split(os.sep)[0] == 'crates':
            inside += paths
        else:
            outside += [path for path in paths if SOURCE.fullmatch(path)]
    left_out = ignored(inside)
    return sorted([path for path in inside if path not in left_out] + outside)


GOOD = ['crates/a/src/lib.rt', 'crates/a/must-fail/x.md', 'crates/a/src/in/side.rt', 'crates/a/specs/A.antt', 'crates/a/proofs/f/Proof.antt',
        'crates/b/must-fail/x.edit', 'crates/b/stdin', 'crates/b/stdout', 'crates/b/args', 'crates/b/data/in/side.json',
        'crates/b/status', 'README.md', 'crates.txt', 'host/tool.py', 'examples/a/src', 'target/staticlib/liba.a']
BAD = ['crates/note.md', 'crates/lib.rt', 'crates/c/src/lib.rt', 'crates/#/src/lib.rt', 'crates/a/lib.rt', 'crates/a/README.md',
       'crates/a/src/A.antt', 'crates/a/src/lib.rt.orig', 'crates/a/specs/lib.rt', 'crates/a/specs/A.antt~',
       'crates/a/must-fail/in/x.edit', 'crates/a/must-fail/y.md', 'crates/a/must-fail/x.log', 'crates/a/stdin/x', 'crates/a/data', 'crates/a/tests/x.rt',
       'lib.rt', 'docs/A.antt', 'host/crates/a/src/lib.rt', '.ci/x.rt', 'target/crates/a/src/lib.rt']


def results():
    sample = listed('# c: none\na:\nb staticlib: a # as c: is not\n')
    yield 'sample', None if sample == ['a', 'b'] else 'the crates listed are %r' % sample
    for path in GOOD + BAD:
        got = fault(path, sample, 'crates/a/must-fail/x.md is only to be read')
        yield 'sample', None if (got is None) == (path in GOOD) else '%s is judged wrongly: %s' % (path, got)
    crates = listed((ROOT / 'crates.txt').read_text(encoding='utf-8'))
    for name in crates:
        yield 'crates.txt', None if (ROOT / 'crates' / name).is_dir() else 'there is no folder crates/%s' % name
    port = ROOT / 'docs' / 'PORT.md'
    told = port.read_text(encoding='utf-8') if port.exists() else ''
    for path in files():
        yield path, fault(path, crates, told)


report(results())
