#!/usr/bin/env python3
"""Has the prover compute the counterexamples of the must-fail edits of crates/model and crates/syntax.

That an edit is refused shows a broken proof, not yet a false law. So an edit has lines `witness: {..}`: cases as in
vectors/, but with JSON values for the hex of rule, sheet, record and answer, and with limit 1000, out 16384 and record
null where these are left out. They say what the edited definitions give: antt accepts `refl` for each over a copy of
the definitions with the edit. At least one of an edit's cases is one where the reference gives something else; and
over the definitions as they are, exactly the cases where it does are refused. (The reference does not read texts: a
case of the entry `read` is always to be refused there.) A wrong program that no answer shows has a line `argued: ..`
instead, which must_fail_reasons.py checks. The scratch repositories are outside the checkout (scratch.py). The last line is 'N passed, M failed'.
"""
import json
import multiprocessing
import re
import shutil
import sys

sys.dont_write_bytecode = True
from edits import edits
from scratch import scratch
from tally import ROOT, report

sys.path[:0] = [str(ROOT / 'host' / 'definitions'), str(ROOT / 'host' / 'reference')]
import test_reference
import try_definitions

CRATE = 'witnessed'
JOBS = 2  # edits that are tried at once
DEFAULTS = {'record': None, 'limit': try_definitions.PROGRAM_LIMIT, 'out': try_definitions.PROGRAM_ROOM}
KEYS = {'entry', 'text', 'rule', 'sheet', 'expect', *DEFAULTS}


class Fault(Exception):
    """What is wrong with an edit."""


# ---- what an edit says

def hex_of(value):
    return json.dumps(value, ensure_ascii=False, separators=(',', ':')).encode('utf-8').hex()


def with_hex(values, keys):
    return {key: hex_of(value) if key in keys else value for key, value in values.items()}


def check_of(name, line):
    """The check of a witness."""
    try:
        stated = json.loads(line)
        if set(stated) - KEYS:
            raise Fault('a witness has no %s' % ', '.join(sorted(set(stated) - KEYS)))
        case = with_hex({**DEFAULTS, **stated}, ('rule', 'sheet', 'record'))
        case = {**case, 'expect': with_hex(case['expect'], ('answer',)), 'id': name, 'note': ''}
        return try_definitions.reading_of(case) if case['entry'] == 'read' else try_definitions.check_of(case)
    except (ValueError, KeyError, TypeError, try_definitions.Skip) as error:
        raise Fault('%r is no witness: %s %s' % (line, type(error).__name__, error)) from None


def checks_of(program):
    """The checks of a wrong program's witnesses; none if it is argued."""
    return [check_of('%s-%d' % (program.label, number), line) for number, line in enumerate(program.stated('witness'), 1)]


def changes_of(program):
    """The replacements of a wrong program outside the laws."""
    return [change for change in program.changes() if not change[0].startswith(('specs/Laws', 'proofs/'))]


# ---- the runs

def apply(crate, changes):
    """Makes the changes in the copied definitions of a crate."""
    for file, old, new in changes:
        path = try_definitions.SCRATCH / 'crates' / CRATE / try_definitions.place_of(crate, file)
        old, new = try_definitions.moved(CRATE, old), try_definitions.moved(CRATE, new)
        if not path.is_file():
            raise Fault('%s is not among the definitions that the cases need' % file)
        text = path.read_text(encoding='utf-8')
        if not old or text.count(old) != 1:
            raise Fault('%s has %r %d times' % (file, old, text.count(old)))
        path.write_text(text.replace(old, new), encoding='utf-8')


def refused(task):
    """The names of the checks that are refused over the definitions with these changes, with what is said; or the Fault."""
    crate, label, changes, checks = task
    try_definitions.in_scratch('witnesses/%s/%s' % (crate, label))
    try_definitions.JOBS = 1
    try_definitions.clear()
    modules = try_definitions.needed_modules()
    try_definitions.copy_definitions(CRATE, modules)
    try:
        apply(crate, changes)
    except Fault as fault:
        return fault
    groups = {check.case['id']: [check] for check in checks}
    try_definitions.write_cases(CRATE, groups, modules)
    output = try_definitions.rt_check([CRATE])
    found = try_definitions.refusals(output, CRATE, groups)
    if found is None:
        errors = [line for line in output.splitlines() if ': error' in line or line.startswith(('rt: ', 'error'))]
        return Fault('no verdict (%s/output.txt): %s' % (try_definitions.SCRATCH, ' '.join(errors[:1])[:300]))
    return found


def verdict(checks, found, differing):
    """None if an edit's witnesses show what they are for, else what is wrong."""
    if isinstance(found, Fault):
        return found
    for name, said in found.items():
        computed = re.findall(r'computed as far as they go, (.*)', said) or said.splitlines()[:1]
        return 'the edited definitions do not give what %s expects: %s' % (name, computed[0][:600])
    if not any(check.case['id'] in differing for check in checks):
        return 'the reference gives the same'
    return None


def unedited(found, differing):
    """None if the definitions as they are give what the reference gives, else what is wrong."""
    if isinstance(found, Fault):
        return found
    wrong = sorted(differing ^ set(found))
    return 'they and the reference do not agree on %s' % ', '.join(wrong) if wrong else None


def differs(check):
    """The reference gives something else than a witness expects."""
    return check.case['entry'] == 'read' or test_reference.numbers_of(check.case) != check.expected


def results():
    shutil.rmtree(scratch('witnesses'), ignore_errors=True)
    names, tasks = [], []
    for crate, program in [(crate, program) for crate in (try_definitions.MODEL, try_definitions.SYNTAX)
                           for _, programs in edits(crate) for program in programs]:
        name = '%s: %s' % (crate.name, program.label)
        try:
            checks = checks_of(program)
        except Fault as fault:
            yield name, fault
            continue
        if checks:
            names.append(name)
            tasks.append((crate.name, program.label, changes_of(program), checks))
    every = [check for *_, checks in tasks for check in checks]
    differing = {check.case['id'] for check in every if differs(check)}

    with multiprocessing.Pool(JOBS) as pool:
        first, *others = pool.map(refused, [('model', '.unedited', [], every), *tasks], chunksize=1)
    yield 'the definitions as they are', unedited(first, differing)
    for name, (*_, checks), found in zip(names, tasks, others):
        yield name, verdict(checks, found, differing)


if __name__ == '__main__':
    report(results())
