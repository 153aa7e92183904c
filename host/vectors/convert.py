#!/usr/bin/env python3
"""Makes crates/test_vectors/data/cases, which the program crates/test_vectors runs, from the cases of vectors/ and document 01.

It takes the cases of the entry `evaluate` but those with a work area too short, the rows that document 01 marks with a
star, and its reduce row at the limits 15 and 14. README.md, beside this file, has the format. With `--check` it writes
nothing, and its exit status is 1 if the kept file is not what it makes.
"""
import argparse
import json
import sys
from pathlib import Path

ROOT = Path(__file__).resolve().parents[2]
KEPT = ROOT / "crates" / "test_vectors" / "data" / "cases"

# The texts of a call by their numbers, as the entry tells which one is refused.
TEXTS = {None: 0, "rule": 1, "record": 3}

MAX_STEPS = 1000
OUTPUT_BYTES = 16384

RECORD = b'{"a":1}'
REDUCE = b'{"reduce":[[1,2,3],{"+":[{"var":"current"},{"var":"accumulator"}]},0]}'

# Document 01, "Both sides of the line": rule, limit, refusal, steps, answer.
ROWS = [
    (b'{"===":[{"var":"a"},1]}', MAX_STEPS, 0, 3, b"true"),
    (b'{"and":[0,{"+":["a",1]}]}', MAX_STEPS, 0, 2, b"0"),
    (b'{"!":[[]]}', MAX_STEPS, 0, 2, b"true"),
    (b'{">":[3,2,"x"]}', MAX_STEPS, 7, 4, b""),
    (b'{"+":[9007199254740991,1]}', MAX_STEPS, 9, 3, b""),
    (REDUCE, MAX_STEPS, 0, 15, b"6"),
    (b'{"plusTime":["2020-01-31",1,"month"]}', MAX_STEPS, 0, 2, b'"2020-03-02T00:00:00.000Z"'),
    (b'{"plusTime":["2020-02-29",1,"year"]}', MAX_STEPS, 0, 2, b'"2021-03-01T00:00:00.000Z"'),
    (b'{"extractFromUVCI":["URN:UVCI",0]}', MAX_STEPS, 0, 2, b"null"),
    (REDUCE, 15, 0, 15, b"6"),
    (REDUCE, 14, 10, 14, b""),
]


def case(name, rule, record, limit, room, refusal, which, place, steps, answer):
    numbers = (limit, room, refusal, which, place, steps, len(rule), len(record), len(answer))
    return b"%s %s\n%s%s%s\n" % (name.encode(), b" ".join(b"%d" % n for n in numbers), rule, record, answer)


def rows():
    for i, (rule, limit, refusal, steps, answer) in enumerate(ROWS):
        yield case("row-%d" % (i + 1), rule, RECORD, limit, OUTPUT_BYTES, refusal, 0, 0, steps, answer)


def vectors():
    for path in sorted((ROOT / "vectors").glob("*.jsonl")):
        for line in path.read_text(encoding="utf-8").splitlines():
            v = json.loads(line)
            if v["entry"] != "evaluate" or "short" in v:
                continue
            rule, record = bytes.fromhex(v["rule"]), bytes.fromhex(v["record"])
            e = v["expect"]
            which, place = TEXTS[e.get("text")], e.get("place", 0)
            answer = bytes.fromhex(e.get("answer", ""))
            yield case(v["id"], rule, record, v["limit"], v["out"], e["refusal"], which, place, e["steps"], answer)


def main():
    parser = argparse.ArgumentParser(description=__doc__.split("\n")[0])
    parser.add_argument("--check", action="store_true", help="only compare with the kept file")
    check = parser.parse_args().check
    cases = [*rows(), *vectors()]
    made = b"".join(cases)
    kept = KEPT.relative_to(ROOT)
    if not check:
        KEPT.write_bytes(made)
        print("%s: %d cases, %d bytes" % (kept, len(cases), len(made)))
    elif KEPT.read_bytes() == made:
        print("%s is what host/vectors/convert.py makes: %d cases" % (kept, len(cases)))
    else:
        print("%s is not what host/vectors/convert.py makes" % kept)
        sys.exit(1)


main()
