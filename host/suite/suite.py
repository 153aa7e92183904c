#!/usr/bin/env python3
"""Runs test suites of CertLogic's published format through jehvrukam_evaluate and compares the answers.

    suite.py LIBRARY FOLDER

LIBRARY is a shared object with the entry. Every *.json of the folder is a suite: a name and cases; a case has a name, a
certLogicExpression and assertions; an assertion has data and expected, and may have a message. Expression and data are
given to the entry as texts, with the limit 1,000 and an output of 16,384 bytes; the answer's value is compared with the
one expected: numbers by what they are, the order of members does not matter. Other members are not looked at.

An answer that differs is printed, as FILE: CASE: ASSERTION: OUTCOME. If the folder's narrowed.txt lists just this, it
is no failure; a line listed there that does not occur is one. The last line is 'N passed, M failed': tests of this
script on samples, one for each assertion, one for each line listed.
"""
import ctypes
import json
import pathlib
import re
import sys
from decimal import Decimal

sys.dont_write_bytecode = True
HOST = pathlib.Path(__file__).resolve().parents[1]
sys.path.insert(0, str(HOST / 'gate'))
from tally import report

HEADER = (HOST.parent / 'include' / 'jehvrukam.h').read_text(encoding='utf-8')


def stated(name):
    """A number that the header states."""
    return int(re.search(r'#define JEHVRUKAM_%s (\d+)' % name, HEADER).group(1))


# ---- JSON, with numbers as they are spelled

class Number:
    """A number, equal to any of the same value; no boolean is one."""

    def __init__(self, spelled):
        self.spelled = spelled

    def __eq__(self, other):
        return isinstance(other, Number) and Decimal(self.spelled) == Decimal(other.spelled)


def members(pairs):
    if len(dict(pairs)) < len(pairs):
        raise ValueError('a name twice in one object: %s' % [name for name, _ in pairs])
    return dict(pairs)


def constant(name):
    raise ValueError('%s is not JSON' % name)


def value_of(text):
    return json.loads(text, object_pairs_hook=members, parse_int=Number, parse_float=Number, parse_constant=constant)


def text_of(value):
    if isinstance(value, Number):
        return value.spelled
    if isinstance(value, list):
        return '[%s]' % ','.join(map(text_of, value))
    if isinstance(value, dict):
        return '{%s}' % ','.join('%s:%s' % (json.dumps(name), text_of(content)) for name, content in value.items())
    return json.dumps(value)


# ---- the entry

def entry_of(library):
    """A function from the texts of a rule and a record to (refusal, answer's text or None)."""
    evaluate = ctypes.CDLL(library).jehvrukam_evaluate
    byte_area = [ctypes.c_char_p, ctypes.c_size_t]
    evaluate.argtypes = 2 * byte_area + [ctypes.c_uint64] + 6 * byte_area + 4 * [ctypes.POINTER(ctypes.c_uint64)]
    evaluate.restype = ctypes.c_uint32
    text_areas = ['TABLE_BYTES', 'STRINGS_BYTES']
    areas = [ctypes.create_string_buffer(stated(name)) for name in 2 * text_areas + ['CELLS_BYTES', 'MAX_TEXT_BYTES']]
    numbers = [ctypes.c_uint64() for _ in range(4)]
    limit = stated('MAX_STEPS')

    def call(rule, record):
        lent = [argument for area in areas for argument in (area, len(area))]
        refusal = evaluate(rule, len(rule), record, len(record), limit, *lent, *map(ctypes.byref, numbers))
        length = numbers[3].value
        return refusal, areas[-1].raw[:length] if refusal == 0 else None

    return call


# ---- suites

def member(holder, name, kind=object):
    if name not in holder or not isinstance(holder[name], kind):
        raise ValueError('no %s, or not as it should be' % name)
    return holder[name]


def assertions(suite):
    """(case and number, expression, data, expected, message) for each assertion of a suite."""
    for case in member(suite, 'cases', list):
        for i, assertion in enumerate(member(case, 'assertions', list), 1):
            where = '%s: %d' % (member(case, 'name', str), i)
            message = assertion.get('message', case.get('message'))
            yield (where, member(case, 'certLogicExpression'), member(assertion, 'data'),
                   member(assertion, 'expected'), message)


def outcome(entry, expression, data, expected):
    """None if the answer is the expected one, else what comes instead."""
    refusal, answer = entry(text_of(expression).encode(), text_of(data).encode())
    if refusal != 0:
        return 'refused %d' % refusal
    return None if value_of(answer) == expected else 'gives %s' % answer.decode()


def results(entry, suites, narrowed):
    """A name and a fault or None for each assertion of the suites, (file's name, text) each, and each line narrowed."""
    occurred = set()
    for file, text in suites:
        try:
            for where, expression, data, expected, message in assertions(value_of(text)):
                came = outcome(entry, expression, data, expected)
                name = '%s: %s' % (file, where)
                line = '%s: %s' % (name, came)
                if came is None or line in narrowed:
                    occurred.add(line)
                    yield name, None
                else:
                    said = ' (%s)' % message if message else ''
                    yield name, '%s, expected %s%s' % (came, text_of(expected), said)
        except ValueError as fault:
            yield file, 'is no suite: %s' % fault
    for line in narrowed:
        yield 'narrowed', None if line in occurred else 'this does not occur: %s' % line


def listed(text):
    """The lines of a narrowed.txt but comments and empty ones."""
    return [line.strip() for line in text.splitlines() if line.strip() and not line.startswith('#')]


# ---- this script on samples

def sample_entry(rule, record):
    """Answers a record that is an array with its first item, refuses others by their length."""
    return (0, text_of(value_of(record)[0]).encode()) if record.startswith(b'[') else (len(record), None)


def sample_suite(data, expected, more=''):
    assertion = '{"data":%s,"expected":%s%s}' % (data, expected, more)
    return '{"name":"s","cases":[{"name":"c","certLogicExpression":true,"assertions":[%s]}]}' % assertion


SAMPLES = [  # suite's text, lines narrowed, faults
    (sample_suite('[null]', 'null'), [], [None]),
    (sample_suite('[false]', 'null'), [], ['gives false, expected null']),
    (sample_suite('[0]', 'false'), [], ['gives 0, expected false']),
    (sample_suite('[1]', 'true'), [], ['gives 1, expected true']),
    (sample_suite('["1"]', '1'), [], ['gives "1", expected 1']),
    (sample_suite('[1]', '1.0'), [], [None]),
    (sample_suite('[{"a":1,"b":[2]}]', '{"b":[2],"a":1}'), [], [None]),
    (sample_suite('[{"a":1}]', '{"a":1,"b":null}'), [], ['gives {"a":1}, expected {"a":1,"b":null}']),
    (sample_suite('["\\u00e9"]', '"\u00e9"'), [], [None]),
    (sample_suite('1.50', '1'), [], ['refused 4, expected 1']),
    (sample_suite('"ab"', '1', ',"message":"m"'), [], ['refused 4, expected 1 (m)']),
    (sample_suite('"ab"', '1'), ['f: c: 1: refused 4'], [None, None]),
    (sample_suite('"ab"', '1'), ['f: c: 1: refused 5'],
     ['refused 4, expected 1', 'this does not occur: f: c: 1: refused 5']),
    (sample_suite('[1]', '1'), ['f: c: 1: refused 4'], [None, 'this does not occur: f: c: 1: refused 4']),
    ('{"name":"s"}', [], ['is no suite: no cases, or not as it should be']),
    ('{"cases":[{"name":"c","certLogicExpression":1,"assertions":[{"data":1}]}]}', [],
     ['is no suite: no expected, or not as it should be']),
    (sample_suite('{"a":1,"a":2}', '1'), [], ["is no suite: a name twice in one object: ['a', 'a']"]),
]


def samples():
    for text, narrowed, expected in SAMPLES:
        got = [fault for _, fault in results(sample_entry, [('f', text)], narrowed)]
        yield 'sample', None if got == expected else '%s gives %r, expected %r' % (text, got, expected)


def main():
    if len(sys.argv) != 3:
        sys.exit('usage: suite.py LIBRARY FOLDER')
    folder = pathlib.Path(sys.argv[2])
    suites = [(path.name, path.read_text(encoding='utf-8')) for path in sorted(folder.glob('*.json'))]
    if not suites:
        sys.exit('%s has no *.json' % folder)
    listing = folder / 'narrowed.txt'
    narrowed = listed(listing.read_text(encoding='utf-8')) if listing.exists() else []
    for line in narrowed:
        print('narrowed: %s' % line)
    report([*samples(), *results(entry_of(sys.argv[1]), suites, narrowed)])


main()
