#!/usr/bin/env python3
"""Compares the definitions of crates/model and crates/pipeline with the reference on random cases.

The reference judges each case, and antt is to accept `refl` for what it gives, as in try_definitions.py: from the bytes
of the texts. The cases depend on the seed and their number alone. README.md, beside this file, says more.
"""
import argparse
import itertools
import random
import sys
import time
from pathlib import Path

sys.dont_write_bytecode = True
sys.path.insert(0, str(Path(__file__).resolve().parents[1] / "reference"))
import certlogic
import try_definitions
from try_definitions import Check, Members

try_definitions.USES += """use Rattle.std.specs.Prelude.{◌++◌, length}
use Rattle.model.specs.Eval.{run}
use Rattle.model.specs.Run.{Name, trace}
"""
try_definitions.SEEN += """
abbrev spelled : List Name → List ℕ
spelled [] = []
spelled (name ∷ names) = length name ∷ (name ++ spelled names)

-- Of a stage that passes: 0, and for each step the length of the name and the name; of another the refusal's number.
abbrev pub seen_trace : Stage TextsRead → ℕ → List ℕ
seen_trace (passed t) limit = 0 ∷ spelled (trace (run t.rule.content t.«record» limit))
seen_trace (refused e which place) limit = number e ∷ []
"""

CASES = 5000  # some 150 s of processor time
SHOWN = 20  # disagreements that are printed
LONGEST_TRACE = 60  # steps of a run whose trace is compared

# ---- what cases are made of

LARGEST = certlogic.LARGEST_INTEGER
INTEGERS = [0, 1, -1, 2, 3, 5, -7, 12, 1000, LARGEST, LARGEST - 1, -LARGEST]
AMOUNTS = [0, 0, 1, 1, -1, 2, 3, 11, 12, 13, -12, -13, 24, 31, 48, 400, 1000, -1000, LARGEST, -LARGEST]
INDICES = [0, 0, 1, 2, 3, -1, LARGEST]

# The years are small, since dates of later ones take antt longer to compute; vectors/ has those.
DAYS = [b"0004", b"0003", b"0004-02", b"0400-02", b"0100-02", b"0004-02-29", b"0000-01-01", b"0001-01-31", b"0012-12-31"]
TIMES = [
    b"0001-01-01T00:00:00", b"0001-01-01T23:59:59Z", b"0001-12-31T23:59:59.999999999-23:59", b"0000-01-01T00:00:00+00:01",
    b"0000-01-01T00:00:00.5-1", b"0002-03-01T01:02:03.25+1", b"0002-03-01T01:02:03+130", b"0002-03-01T01:02:03-1330",
    b"0002-03-01T01:02:03+1:30", b"0004-02-29T12:00:00.1234Z", b"0000-12-31T23:00:00-02",
]
NEAR_DATES = [
    b"0001-13", b"0001-00", b"0001-01-00", b"0003-02-29", b"0001-1-1", b"0001-01-01T24:00:00Z", b"0001-01-01T00:60:00",
    b"0002-03-01T01:02:03.", b"0002-03-01T01:02:03.1234567891Z", b"0002-03-01t01:02:03Z", b"0002-03-01T01:02:03z",
    b"0002-03-01T01:02:03-2460", b"0002-03-01T01:02:03+24", b"0002-03-01T01:02", b" 0001", b"00001",
]
UVCIS = [
    b"URN:UVCI:01:NL/x#y", b"URN:UVCI", b"URN/UVCI#", b"URN:UVCI:URN:UVCI:z", b"urn:uvci:1", b"UVCI:URN:a", b":", b"/a", b"a::c/#/f", b"",
]
STRINGS = [b"", b"a", b"b", b"0", b"a.b", b"year", b"current", "é€😀".encode(), b'\x00\x1f"\\/\x7f\n']
POOLS = {
    "boolean": [True, False],
    "integer": INTEGERS,
    "day": DAYS,
    "date": 3 * (DAYS + TIMES) + NEAR_DATES,
    "uvci": UVCIS,
    "string": STRINGS + UVCIS[:2] + DAYS[:1] + TIMES[:1] + NEAR_DATES,
}

# A usual record has these members; a path is filed under what it leads to there.
PATHS = {
    "boolean": [b"t", b"o.t"],
    "integer": [b"i", b"o.i", b"is.0", b"is.1"],
    "day": [b"d"],
    "date": [b"d", b"w"],
    "uvci": [b"u"],
    "string": [b"s", b"u", b"ss.0", b"o.a.b"],
    "null": [b"n", b"missing", b"i.a", b"is.00", b"is.-1", b"is.99999999999999999999", b"o.0", b"t.t.t", b"is.7"],
    "array": [b"is", b"ss", b"l", b"l.0"],
    "object": [b"o", b"", b"o.a"],
}
# The words of a sheet that a usual record fits.
SHEET = {
    b"t": b"boolean", b"o.t": b"boolean", b"i": b"integer", b"o.i": b"integer", b"is.0": b"integer", b"is.1": b"integer",
    b"d": b"day", b"w": b"date", b"s": b"string", b"u": b"string", b"ss.0": b"string", b"o.a.b": b"string", b"n": b"null",
    b"missing": b"null", b"is": b"integers", b"ss": b"strings", b"l": b"array", b"o": b"object", b"o.a": b"object",
}
LAMBDA_PATHS = [b"current", b"accumulator", b"current", b"accumulator", b"", b"current.0", b"accumulator.current", b"accumulator.0", b"i"]
SCALARS = ["boolean", "integer", "string", "null"]
KINDS = [*SCALARS, "date", "uvci", "array", "object", "instant"]
GUARDS = KINDS[:-1] + ["boolean", "boolean"]
ROOTS = KINDS + ["boolean"] * 6 + ["integer", "instant"]

SIGNS = [b">", b"<", b">=", b"<="]
DATE_WORDS = [b"after", b"before", b"not-after", b"not-before"]
GIVING = {
    "boolean": [b"===", b"in", b"!", b"!", *SIGNS, *DATE_WORDS],
    "integer": [b"+", b"+"],
    "string": [b"extractFromUVCI"],
    "null": [b"extractFromUVCI"],
    "instant": [b"plusTime", b"plusTime", b"dccDateOfBirth"],
}
GIVING_ANY = [b"if", b"and", b"reduce"]


def operation(name, operands):
    return Members([(name, operands)])


# Values that are no rules.
NO_RULES = [
    None, Members(), operation(b"foo", [1]), operation(b"!", True), operation(b"!", [True, True]), operation(b"!", []),
    operation(b"var", [b"a"]), operation(b"var", 1), operation(b"var", b"."), operation(b"var", b"a."), operation(b"var", b".a"),
    operation(b"var", b"a..b"), operation(b"and", [1]), operation(b"plusTime", [b"0001", 1, b"days"]),
    operation(b"plusTime", [b"0001", operation(b"+", [1, 2]), b"day"]), operation(b"plusTime", [b"0001", 1]),
    operation(b"plusTime", [b"0001", True, b"day"]), operation(b"extractFromUVCI", [b"a", b"0"]), operation(b"dccDateOfBirth", [b"0001", 0]),
    Members([(b"===", [1, 1]), (b"!", [1])]), operation(b">", [1, 2, 3, 4]), operation(b"before", [1]), operation(b"if", [1, 2]),
    operation(b"if", [1, 2, 3, 4]), operation(b"reduce", [[], 2, None]), operation(b"in", [1, [None]]), operation(b"+", [1, 2, 3]),
]
NO_SHEETS = [
    None, [], 1, operation(b"", [b"null"]), operation(b"a", []), operation(b"a", [b"null", b"null"]), operation(b"a", [b"instant"]),
    operation(b"a", b"null"), operation(b"a.", [b"null"]), operation(b"a", [1]), Members([(b"i", [b"integer"]), (b"a..b", [b"null"])]),
]


class Maker:
    """Makes random texts. A rule is mostly made so that its operands have the kinds that they need."""

    def __init__(self, seed):
        self.random = random.Random(seed)
        self.choice = self.random.choice

    def chance(self, probability):
        return self.random.random() < probability

    # -- rules; `inside` says whether inside a lambda

    def rule(self, depth, wanted, inside=False):
        if self.chance(0.05):
            wanted = self.choice(KINDS)
        if depth <= 0 or self.chance(0.15):
            return self.leaf(wanted, inside)
        if wanted == "array" and self.chance(0.6):
            return self.array(depth, inside)
        name = self.choice(GIVING.get(wanted, []) + GIVING_ANY)
        return operation(name, self.operands(name, wanted, depth - 1, inside))

    def leaf(self, wanted, inside):
        if inside and self.chance(0.6):
            return operation(b"var", self.choice(LAMBDA_PATHS))
        if wanted in PATHS and (wanted not in POOLS or self.chance(0.4)):
            return self.array(0, inside) if wanted == "array" and self.chance(0.7) else operation(b"var", self.choice(PATHS[wanted]))
        if wanted == "instant":
            return operation(b"plusTime", self.shift(0, inside))
        return self.choice(POOLS[wanted])

    def array(self, depth, inside):
        wanted = self.choice(["integer", "integer", "string", *KINDS])
        return [self.rule(depth - 1, wanted, inside) for _ in range(self.random.randint(0, 3))]

    def shift(self, depth, inside):
        return [self.rule(depth, "date", inside), self.choice(AMOUNTS), self.choice(certlogic.UNITS)]

    def operands(self, name, wanted, depth, inside):
        if name == b"if":
            kinds = [self.choice(KINDS + GUARDS), wanted, wanted]
        elif name == b"and":
            kinds = [*self.random.choices(GUARDS, k=self.random.randint(1, 3)), wanted]
        elif name == b"reduce":
            return [self.rule(depth, "array", inside), self.rule(depth, wanted, True), self.rule(depth, wanted, inside)]
        elif name == b"===":
            kinds = [self.choice(SCALARS)] * 2
        elif name == b"in":
            kinds = [self.choice(SCALARS), "array"]
        elif name == b"plusTime":
            return self.shift(depth, inside)
        elif name == b"extractFromUVCI":
            return [self.rule(depth, "uvci", inside), self.choice(INDICES)]
        elif name in (b"!", b"dccDateOfBirth"):
            kinds = ["day" if name == b"dccDateOfBirth" else self.choice(GUARDS)]
        else:
            kinds = ["instant" if name in DATE_WORDS else "integer"] * (2 if name == b"+" else self.random.randint(2, 3))
        return [self.rule(depth, kind, inside) for kind in kinds]

    def damaged(self, rule):
        """A rule with a value somewhere in it that is none."""
        if self.chance(0.25) or not isinstance(rule, list) or not rule:
            return self.choice(NO_RULES)
        if isinstance(rule, Members):
            name, operands = rule[0]
            return operation(name, self.damaged(operands) if isinstance(operands, list) else None)
        at = self.random.randrange(len(rule))
        return [*rule[:at], self.damaged(rule[at]), *rule[at + 1 :]]

    def large(self):
        """A rule whose answer grows with each item: in values, in nesting or in bytes."""
        items = [0] * self.random.randint(1, 11)
        accumulator = operation(b"var", b"accumulator")
        grown = self.choice([[accumulator, accumulator], [[[[accumulator]]]], operation(b"var", b""), [accumulator, b"a" * 200, accumulator]])
        return operation(b"reduce", [items, grown, self.choice([0, [], b"0001"])])

    # -- records and sheets

    def value(self, depth):
        kind = self.choice(["null", "boolean", "integer", "string", "date", "array", "array", "object", "object"])
        if kind in POOLS:
            return self.choice(POOLS[kind])
        if kind == "null" or depth <= 0:
            return None
        if kind == "array":
            return [self.value(depth - 1) for _ in range(self.random.randint(0, 3))]
        names = self.random.sample([b"a", b"b", b"0", b"", b"i", b"t", b"x.y", b"current"], self.random.randint(0, 3))
        return Members((name, self.value(depth - 1)) for name in names)

    def record(self):
        if self.chance(0.15):
            return self.value(3)
        inner = Members([(b"i", self.choice(INTEGERS)), (b"a", Members([(b"b", self.choice(STRINGS))])), (b"t", True)])
        usual = {
            b"t": self.choice([True, False]), b"i": self.choice(INTEGERS), b"d": self.choice(DAYS), b"w": self.choice(TIMES),
            b"u": self.choice(UVCIS), b"s": self.choice(STRINGS), b"n": None, b"is": self.random.choices(INTEGERS, k=self.choice([0, 2, 2, 3])),
            b"ss": self.random.choices(STRINGS, k=self.choice([0, 1, 2, 2])), b"l": [self.value(1) for _ in range(3)], b"o": inner,
        }
        for name in self.random.sample(list(usual), self.choice([0, 0, 1, 2])):
            usual[name] = self.value(2)
        return Members(usual.items())

    def sheet(self):
        if self.chance(0.06):
            return self.choice(NO_SHEETS)
        count = len(SHEET) if self.chance(0.6) else self.random.randint(0, len(SHEET))
        return Members((path, self.words(path)) for path in self.random.sample(list(SHEET), count))

    def words(self, path):
        if self.chance(0.94):
            return [SHEET[path]]
        return self.random.sample(certlogic.SHEET_WORDS, self.random.randint(1, 3))

    def text(self, make):
        """The text of a value within the limits of reading."""
        while True:
            try:
                return certlogic.measure(make())[2]
            except certlogic.Refused:
                continue

    def rule_text(self):
        kind = self.random.random()
        if kind < 0.03:
            return self.text(self.large)
        depth = self.choice([1, 2, 2, 3, 3, 4])
        if kind < 0.1:
            return self.text(lambda: self.damaged(self.rule(depth, self.choice(ROOTS))))
        return self.text(lambda: self.rule(depth, self.choice(ROOTS)))

    def case(self, number):
        """A case as in vectors/, but for what it expects."""
        entry = self.choice(["evaluate"] * 5 + ["check"] * 3 + ["evaluate_with_sheet", "fits"])
        case = {"id": f"{entry}-{number}", "entry": entry, "note": ""}
        if entry != "fits":
            case["rule"] = self.rule_text().hex()
        if entry != "evaluate":
            case["sheet"] = self.text(self.sheet).hex()
        if entry != "check":
            case["record"] = self.text(self.record).hex()
        if entry.startswith("evaluate"):
            case["limit"] = 1000 if self.chance(0.8) else self.random.randint(0, 12)
            case["out"] = 16384 if self.chance(0.8) else self.random.randint(0, 30)
        return case


# ---- what is expected of a case

def values_of(case):
    return [try_definitions.Reader(bytes.fromhex(case[key])).read() for key in ("rule", "sheet", "record") if key in case]


def judged(case):
    """The case with what the reference expects."""
    values = values_of(case)
    if case["entry"] == "check":
        refusal, words = certlogic.check(*values)
        return {**case, "expect": {"refusal": refusal, "kinds": words}}
    if case["entry"] == "fits":
        refusal, fitting = certlogic.fits(*values)
        return {**case, "expect": {"refusal": refusal, "fits": fitting}}
    evaluate = certlogic.evaluate if case["entry"] == "evaluate" else certlogic.evaluate_checked
    refusal, steps, answer = evaluate(*values, case["limit"], case["out"])
    return {**case, "expect": {"refusal": refusal, "steps": steps, "answer": answer.hex()}}


def trace_check(check):
    """The check of the trace of an `evaluate` case, from that of its answer. A name is the place read from its inner end."""
    case = check.case
    refusal, places, _ = certlogic.evaluate_traced(*values_of(case), case["limit"], case["out"])
    expect = {"refusal": refusal if refusal == certlogic.NOT_A_RULE else certlogic.DONE, "places": places}
    names = [[len(place), *reversed(place)] for place in places]
    traced = {**case, "id": case["id"].replace("evaluate", "trace"), "entry": "trace", "expect": expect}
    return Check(traced, f"seen_trace (evaluate_stage {{}} {{}}) {case['limit']}", [expect["refusal"], *itertools.chain(*names)], check.texts)


def checks_of(cases):
    """The checks of the cases, and those of the traces."""
    checks = [try_definitions.check_of(case) for case in cases]
    traced = [check for check in checks if check.case["entry"] == "evaluate" and check.case["expect"]["steps"] <= LONGEST_TRACE]
    return checks, [trace_check(check) for check in traced]


def self_test():
    """Groups with plain cases, of each entry and of a trace: as they are, and with expectations that are wrong."""
    rule, sheet, record = b'{"+":[{"var":"i"},1]}'.hex(), b'{"i":["integer"]}'.hex(), b'{"i":41}'.hex()
    texts = {
        "evaluate": {"rule": rule, "record": record, "limit": 1000, "out": 16384},
        "evaluate_with_sheet": {"rule": rule, "sheet": sheet, "record": record, "limit": 1000, "out": 16384},
        "check": {"rule": rule, "sheet": sheet},
        "fits": {"sheet": sheet, "record": record},
    }
    checks, traces = checks_of([judged({"id": entry, "entry": entry, "note": "", **given}) for entry, given in texts.items()])
    return try_definitions.self_test(checks + traces)


# ---- the run

def tried(checks, modules):
    """The number of checks that are accepted; the cases of those that are refused by themselves, with what was said; and whether the self-test passes."""
    tests = self_test()
    crates = try_definitions.dealt(try_definitions.grouped(checks, try_definitions.TOGETHER), "random")
    refused = try_definitions.run({**crates, "wrong": tests}, modules)
    tested = try_definitions.self_tested(tests, refused.pop("wrong") or {})
    accepted, others = try_definitions.judged(crates, refused)
    alone, refuted = try_definitions.tried_alone(others, modules)
    return len(accepted) + len(alone), refuted, tested


def shown(case, said, options):
    """A disagreement, for a reader, with its texts whole."""
    lines = [f"disagrees: {case['id']} of --seed {options.seed} --cases {options.cases}"]
    lines += [f"  {key}: {bytes.fromhex(case[key]).decode()}" for key in ("rule", "sheet", "record") if key in case]
    lines += [f"  {key}: {case[key]}" for key in ("limit", "out") if key in case]
    expected_and_said = try_definitions.shown(case, said).splitlines()[2:]
    return "\n".join(lines + expected_and_said)


def counts(cases):
    """How many cases of each entry end with each number."""
    ends = {}
    for case in cases:
        numbers = ends.setdefault(case["entry"], {})
        refusal = case["expect"]["refusal"]
        numbers[refusal] = numbers.get(refusal, 0) + 1
    return "\n".join(f"  {entry}: " + ", ".join(f"{count} with {end}" for end, count in sorted(ends[entry].items())) for entry in sorted(ends))


def main():
    arguments = argparse.ArgumentParser(description=__doc__.splitlines()[0])
    arguments.add_argument("--seed", type=int, default=1, help="1 if not given")
    arguments.add_argument("--cases", type=int, default=CASES, help=f"{CASES} if not given")
    arguments.add_argument("--tally", action="store_true", help="end with one more line, 'N passed, M failed'")
    options = arguments.parse_args()
    began = time.monotonic()

    maker = Maker(options.seed)
    cases = [judged(maker.case(number)) for number in range(options.cases)]
    print(f"seed {options.seed}, {len(cases)} cases", counts(cases), sep="\n")
    checks, traces = checks_of(cases)
    try_definitions.in_scratch("differential")
    try_definitions.clear()
    agree, refuted, tested = tried(checks + traces, try_definitions.needed_modules())

    for case, said in refuted[:SHOWN]:
        print(shown(case, said, options))
    if len(refuted) > SHOWN:
        print(f"and {len(refuted) - SHOWN} more")
    print(f"time: {time.monotonic() - began:.0f} s")
    print(f"differential: seed {options.seed}, {agree} agree, {len(refuted)} disagree ({len(checks)} answers and {len(traces)} traces)")
    if options.tally:
        print(f"{agree + tested} passed, {len(refuted) + (not tested)} failed")
    return 0 if tested and agree and not refuted and agree == len(checks) + len(traces) else 1


if __name__ == "__main__":
    sys.exit(main())
