#!/usr/bin/env python3
"""Evaluates a rule on a record, as the definitions of crates/pipeline and crates/model say; prints what the program will print.

The reference computes the answer. The prover then checks, as a theorem, that the definitions give exactly that, and
only then is it printed. A limit above 1,000 is refused with 1 at once, without the prover. A missing file counts as
empty. README.md, beside this file, says more.
"""
import argparse
import contextlib
import shutil
import sys
from pathlib import Path

sys.dont_write_bytecode = True
sys.path.insert(0, str(Path(__file__).resolve().parents[1] / "reference"))
import certlogic
import try_definitions

CRATE = "evaluation"
BEFORE_EVALUATION = (certlogic.NOT_A_RULE, certlogic.NOT_A_SHEET, certlogic.NOT_ACCEPTED)


def value_of(text):
    """A text's value; null for one that does not read, which check_of finds out where it matters."""
    try:
        return try_definitions.Reader(text).read()
    except try_definitions.Unreadable:
        return None


def answer_case(texts, limit):
    """The case of the answer, as in vectors/, with what the reference gives."""
    values = {key: value_of(text) for key, text in texts.items()}
    judge = certlogic.evaluate_checked if "sheet" in texts else certlogic.evaluate
    refusal, steps, answer = judge(**values, limit=limit, room=try_definitions.PROGRAM_ROOM)
    return {
        "id": "answer-given",
        "entry": "evaluate_with_sheet" if "sheet" in texts else "evaluate",
        **{key: text.hex() for key, text in texts.items()},
        "limit": limit,
        "out": try_definitions.PROGRAM_ROOM,
        "expect": {"refusal": refusal, "steps": steps, "answer": answer.hex()},
        "note": "",
    }


def sheet_cases(texts):
    """The cases of the kinds found and of the fit, for a rule that passes the check."""
    rule, sheet, record = (value_of(texts[key]) for key in ("rule", "sheet", "record"))
    kinds = {"refusal": 0, "kinds": certlogic.check(rule, sheet)[1]}
    fit = {"refusal": 0, "fits": certlogic.fits(sheet, record)[1]}
    return [
        {"id": "kinds-found", "entry": "check", "rule": texts["rule"].hex(), "sheet": texts["sheet"].hex(), "expect": kinds, "note": ""},
        {"id": "fit-found", "entry": "fits", "sheet": texts["sheet"].hex(), "record": texts["record"].hex(), "expect": fit, "note": ""},
    ]


def prove(cases):
    """Has the prover check what the cases expect; ends the program where it does not accept that."""
    try:
        checks = [try_definitions.check_of(case) for case in cases]
    except ValueError as fault:
        sys.exit(f"the case is not judged: {fault} (refusals 2 to 5; host/read tells which and where)")
    if shutil.which("rt") is None:
        sys.exit("the Rattle toolchain (rt) is not on PATH")
    with contextlib.redirect_stdout(sys.stderr):
        try_definitions.in_scratch("evaluate")
        try_definitions.clear()
        modules = try_definitions.needed_modules()
        crates = {CRATE: try_definitions.grouped(checks, try_definitions.ALONE)}
        refuted = try_definitions.judged(crates, try_definitions.run(crates, modules))[1]
        for check, said in refuted:
            print("The definitions are not seen to give what the reference gives.")
            print(try_definitions.shown(check.case, said))
    if refuted:
        sys.exit(2)


def lines_of(case):
    """What a case expects, as the program prints it."""
    expect = case["expect"]
    if "kinds" in expect:
        return [b"kinds " + " ".join(expect["kinds"]).encode()]
    if "fits" in expect:
        return [b"fits yes" if expect["fits"] else b"fits no"]
    end = b"refused %d" % expect["refusal"] if expect["refusal"] else b"answer " + bytes.fromhex(expect["answer"])
    return [end, b"steps %d" % expect["steps"]]


def main():
    arguments = argparse.ArgumentParser(description=__doc__.splitlines()[0])
    arguments.add_argument("rule", type=Path, metavar="RULE")
    arguments.add_argument("record", type=Path, metavar="RECORD")
    arguments.add_argument("--sheet", type=Path, help="also run the kind check, and say whether the record fits")
    arguments.add_argument("--limit", type=int, default=try_definitions.PROGRAM_LIMIT, help="the most steps, 1000 if not given")
    options = arguments.parse_args()
    if options.limit < 0:
        arguments.error("a limit is not negative")

    paths = {"rule": options.rule, "sheet": options.sheet, "record": options.record}
    texts = {key: path.read_bytes() if path.exists() else b"" for key, path in paths.items() if path}
    answer = answer_case(texts, options.limit)
    cases = [answer]
    if options.limit <= certlogic.MOST_STEPS:
        if "sheet" in texts and answer["expect"]["refusal"] not in BEFORE_EVALUATION:
            cases = [*sheet_cases(texts), answer]
        prove(cases)
    sys.stdout.buffer.write(b"".join(line + b"\n" for case in cases for line in lines_of(case)))


if __name__ == "__main__":
    main()
