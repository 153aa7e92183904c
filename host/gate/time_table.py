#!/usr/bin/env python3
"""Tells where the gate's time went.

    time_table.py watch SEEN                    passes on what rt prints, and notes in the file SEEN after how many seconds each
                                                line came
    time_table.py show SEEN TESTS CLOCK SECONDS prints the table: rt ci, from SEEN; host tests, from TESTS, a line
                                                `SECONDS TITLE` for each, which took CLOCK seconds; and the whole
    time_table.py test                          tests of this script; the last line is 'N passed, M failed'

rt ci does not say how long a crate or an edit took, and tries several side by side. So of what it proved in this run the table
tells when it was done, the last ten; of its edits how many there are, with what was done when the last was tried. A host test has
its own time; their time on the clock is less than these added up, since they too run side by side.
"""
import re
import sys
import time

sys.dont_write_bytecode = True
from tally import report

DEAREST = 10

# What rt says of a crate, its tests, an edit, and what it ran.
PROVED = re.compile(r'rt: (\w+(?:: its tests are)?) (?:proved|NOT PROVED)\b')
KEPT = re.compile(r'rt: \w+ is kept: ')
EDIT = re.compile(r'rt: must-fail (\S+): ')
RAN = re.compile(r'rt: (\w+)(?: ran\b|: its tests (?:passed|FAILED)|.*: the program )')


def watch(path):
    """Passes lines on as they come, whatever bytes they have, and notes when."""
    began = time.monotonic()
    with open(path, 'wb') as seen:
        for line in sys.stdin.buffer:
            sys.stdout.buffer.write(line)
            sys.stdout.buffer.flush()
            seen.write(b'%d ' % (time.monotonic() - began) + line)


def timed(lines):
    """(seconds, text) for each line `SECONDS TEXT`."""
    return [(int(seconds), text) for seconds, _, text in (line.partition(' ') for line in lines)]


def of_rt(seen):
    """The lines of the table for what rt ci printed."""
    proved, kept, edits, runs, end = [], 0, 0, 0, 0
    for at, text in seen:
        proved += [(at, found.group(1).replace(' are', '')) for found in [PROVED.match(text)] if found]
        kept += bool(KEPT.match(text))
        edits += bool(EDIT.match(text))
        runs += bool(RAN.match(text))
        if PROVED.match(text) or KEPT.match(text) or EDIT.match(text):
            end = at
    yield 'proofs and must-fail edits: %d s on the clock (%d proved now, %d kept; %d edits)' % (end, len(proved), kept, edits)
    for at, name in proved[-DEAREST:]:
        yield '%7d s  on the clock: %s' % (at, name)
    yield 'programs and tests that rt ci ran: %d s on the clock (%d)' % (max([at for at, _ in seen], default=0) - end, runs)


def shown(title, unit, clock, items):
    """The lines of a part."""
    yield '%s: %d s on the clock, %d s added up (%d %s)' % (title, clock, sum(seconds for seconds, _ in items), len(items), unit)
    for seconds, name in sorted(items, key=lambda item: -item[0])[:DEAREST]:
        yield '%7d s  %s' % (seconds, name)


def table(seen, tests, clock_of_tests, whole):
    """The lines of the table."""
    yield from of_rt(seen)
    yield from shown('host tests', 'tests', clock_of_tests, tests)
    yield 'the whole gate: %d min %d s' % divmod(whole, 60)


SEEN = '''3 fn model::f: proved
6 == model
7 rt: model proved
9 rt: area NOT PROVED
10 rt: octets NOT PROVED: its library area failed
11 rt: names is kept: an earlier run on this machine proved the same files over the same libraries
12 rt: vectors: its tests are proved
13 rt: names: trying its must-fail edits (1)
20 rt: must-fail model/sum_unlimited.edit: refused, as it must be: ./proofs/Laws/Runs.antt:67:35: error: `law`: no
26 rt: must-fail area/programs_1.edit: NOT REFUSED: the crate is still proved with this edit
27 rt: must-fail area/programs_2.edit: BAD EDIT: an 'old:' text is in src/lib.rt 0 times, and not once
28 rt: admit ran, and wrote what its file stdout has
29 rt: vectors: its tests passed
29 rt: FAILED: area area/programs_1
30 2 passed, 2 failed'''
TESTS = ['%d test %d' % (n, n) for n in range(1, 13)]
SHOWN = '''proofs and must-fail edits: 27 s on the clock (4 proved now, 1 kept; 3 edits)
      7 s  on the clock: model
      9 s  on the clock: area
     10 s  on the clock: octets
     12 s  on the clock: vectors: its tests
programs and tests that rt ci ran: 3 s on the clock (2)
host tests: 60 s on the clock, 78 s added up (12 tests)
     12 s  test 12
     11 s  test 11'''


def results():
    shown_lines = list(table(timed(SEEN.splitlines()), timed(TESTS), 60, 100))
    for at, line in enumerate(SHOWN.splitlines()):
        yield 'sample', None if shown_lines[at] == line else '%r, not %r' % (shown_lines[at], line)
    yield 'sample', None if len(shown_lines) == 5 + 1 + 2 + DEAREST else '%d lines' % len(shown_lines)
    yield 'sample', None if shown_lines[-1] == 'the whole gate: 1 min 40 s' else shown_lines[-1]
    yield 'sample', None if len(list(table([], [], 0, 0))) == 4 else 'nothing seen is not shown as nothing'


def lines_of(path):
    with open(path, encoding='utf-8', errors='replace', newline='\n') as file:
        return timed(file.read().split('\n')[:-1])


def main(command, *words):
    if command == 'watch':
        watch(*words)
    elif command == 'show':
        seen, tests, clock, whole = words
        print('\n'.join(table(lines_of(seen), lines_of(tests), int(clock), int(whole))))
    else:
        report(results())


main(*(sys.argv[1:] or ['test']))
