#!/usr/bin/env python3
"""Runs the program `admit` on the cases of vectors/program.jsonl, each in a folder of its own, and compares what it prints.

It runs target/bin/admit, which `host/admit` builds, or the program that its argument names. The last line is
'N passed, M failed'.
"""
import json
import subprocess
import sys
import tempfile
from pathlib import Path

ROOT = Path(__file__).resolve().parents[2]
sys.dont_write_bytecode = True
sys.path.insert(0, str(ROOT / "host" / "gate"))
from tally import report


def printed(program, case):
    """What the program prints in a folder with the files of a case; a file that is null is not there."""
    with tempfile.TemporaryDirectory() as folder:
        for name in ("rule", "record"):
            if case[name] is not None:
                (Path(folder) / (name + ".json")).write_bytes(bytes.fromhex(case[name]))
        return subprocess.run([program], cwd=folder, stdout=subprocess.PIPE, check=True).stdout


def results(program):
    for line in (ROOT / "vectors" / "program.jsonl").read_text(encoding="utf-8").splitlines():
        case = json.loads(line)
        expected = bytes.fromhex(case["expect"]["stdout"])
        got = printed(program, case)
        yield case["id"], None if got == expected else "%r, not %r" % (got, expected)


report(results(Path(sys.argv[1]).resolve() if len(sys.argv) > 1 else ROOT / "target" / "bin" / "admit"))
