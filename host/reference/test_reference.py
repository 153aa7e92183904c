#!/usr/bin/env python3
"""Runs the reference on the cases of vectors/ whose texts read. The last line is 'N passed, M failed'."""
import json
import sys
from pathlib import Path

sys.dont_write_bytecode = True
sys.path.insert(0, str(Path(__file__).resolve().parents[1] / "definitions"))
import certlogic
import try_definitions

SHOWN = 20  # disagreements that are printed


def value_of(text):
    """A text's value; null for one that does not read, which only stands where an earlier refusal is expected."""
    try:
        return try_definitions.Reader(bytes.fromhex(text or "")).read()
    except try_definitions.Unreadable:
        return None


def numbers_of(case):
    """What the reference gives for a case, as the numbers that a Check of try_definitions expects."""
    rule, sheet, record, text = (value_of(case.get(key)) for key in ("rule", "sheet", "record", "text"))
    if case["entry"] == "read":
        values, nesting, written = certlogic.measure(text)
        return [0, values, nesting, *written]
    if case["entry"] == "check":
        refusal, words = certlogic.check(rule, sheet)
        return [refusal, sum(1 << try_definitions.WORDS.index(word) for word in words)]
    if case["entry"] == "fits":
        refusal, fitting = certlogic.fits(sheet, record)
        return [refusal, int(fitting)]
    sizes = case["limit"], case["out"]
    if case["entry"] == "evaluate":
        refusal, steps, answer = certlogic.evaluate(rule, record, *sizes)
    else:
        refusal, steps, answer = certlogic.evaluate_checked(rule, sheet, record, *sizes)
    return [refusal, steps, *answer]


def is_over_limit(case):
    """Refusal 1 for the step limit, which try_definitions skips."""
    return case["expect"].get("refusal") == 1 and "limit" in case and "short" not in case


def is_unread(case):
    """A text of it is refused: the reference reads no texts."""
    return 2 <= case["expect"].get("refusal", 0) <= 5


def main():
    cases = [
        json.loads(line)
        for path in sorted(try_definitions.VECTORS.glob("*.jsonl"))
        for line in path.read_text(encoding="utf-8").splitlines()
    ]
    over_limit = [try_definitions.Check(case, "", [1, 0]) for case in cases if is_over_limit(case)]
    checks, skipped, faulty = try_definitions.sort_out(case for case in cases if not is_over_limit(case))
    skipped["reading: refusals 2 to 5"] = sum(is_unread(check.case) for check in checks)
    checks = [check for check in checks if not is_unread(check.case)] + over_limit

    disagreeing = [(case, fault) for case, fault in faulty]
    for check in checks:
        given = numbers_of(check.case)
        if given != check.expected:
            disagreeing.append((check.case, f"expected as numbers {check.expected}, given {given}"))
    for case, said in disagreeing[:SHOWN]:
        print(try_definitions.shown(case, said))
    for reason, count in skipped.items():
        print(f"skipped: {count} ({reason})")
    passed = len(checks) + len(faulty) - len(disagreeing)
    print(f"{passed} passed, {len(disagreeing)} failed")
    return 0 if passed and not disagreeing else 1


if __name__ == "__main__":
    sys.exit(main())
