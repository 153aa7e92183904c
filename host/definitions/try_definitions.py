#!/usr/bin/env python3
"""Runs the definitions of crates/syntax, crates/model and crates/pipeline on the cases of vectors/, by computation.

antt accepts `refl` for a case exactly if the definitions give what the case expects: `read` of
crates/syntax/specs/Read.antt, or a stage of crates/pipeline/specs/Texts.antt and then `answer_of` of
crates/model/specs/Judgement.antt. All go from the bytes of the texts. README.md, beside this file, says more.
"""
import argparse
import json
import re
import shutil
import subprocess
import sys
import time
from pathlib import Path

sys.dont_write_bytecode = True
sys.path.insert(0, str(Path(__file__).resolve().parents[1] / "gate"))
from scratch import scratch

ROOT = Path(__file__).resolve().parents[2]
VECTORS = ROOT / "vectors"
MODEL = ROOT / "crates" / "model"
SYNTAX = ROOT / "crates" / "syntax"
SCRATCH = None  # the scratch repository; in_scratch sets it

JOBS = 2  # crates that are checked at once
# antt computes a call once in a declaration, so cases that share a text take less time; but it gives up on a declaration
# with too much to compute. A case weighs LIGHT and the bytes of its texts that no case before it in the declaration has.
TOGETHER = 16384  # what the cases of a declaration may weigh in all; a case that weighs more stands alone
LIGHT = 120
ALONE = 0
SINGLED = 300  # cases of refused groups that are then tried in a declaration each
SHOWN = 20  # disagreements that are printed

# The program's step limit and output area.
PROGRAM_LIMIT = 1000
PROGRAM_ROOM = 16384

# The words in the order of their bits.
WORDS = ["null", "boolean", "integer", "string", "date", "day", "integers", "strings", "array", "object", "instant"]


# ---- reading a text: a value is None, a bool, an int, bytes, a list, or Members

class Unreadable(Exception):
    """The text is refused with 2, 3, 4 or 5."""


class Members(list):
    """The members of an object, in their order: pairs of a name in bytes and a value."""


SPACE = re.compile(r"[ \t\n\r]*")
INTEGER = re.compile(r"-?(?:0|[1-9][0-9]{0,15})(?![.eE0-9])")
PLAIN = re.compile(r'[^"\\\x00-\x1f]*')
ESCAPE = re.compile(r'\\(?:(["\\/bfnrt])|u([dD][89abAB][0-9a-fA-F]{2})\\u([dD][c-fC-F][0-9a-fA-F]{2})|u([0-9a-fA-F]{4}))')
SHORT_ESCAPES = dict(zip('"\\/bfnrt', '"\\/\b\f\n\r\t'))
CONSTANTS = {"null": None, "true": True, "false": False}


class Reader:
    def __init__(self, text):
        if len(text) > 16384:
            raise Unreadable
        try:
            self.text = text.decode("utf-8")
        except UnicodeDecodeError:
            raise Unreadable from None
        self.at = 0
        self.values = 0

    def read(self):
        value = self.value(0)
        self.skip()
        if self.at != len(self.text):
            raise Unreadable
        return value

    def skip(self):
        self.at = SPACE.match(self.text, self.at).end()

    def take(self, word):
        """Passes this word if it stands next, after white space, and says whether it does."""
        self.skip()
        found = self.text.startswith(word, self.at)
        if found:
            self.at += len(word)
        return found

    def need(self, word):
        if not self.take(word):
            raise Unreadable

    def value(self, depth):
        self.values += 1
        if self.values > 1024:
            raise Unreadable
        for word, value in CONSTANTS.items():
            if self.take(word):
                return value
        if self.take('"'):
            return self.string()
        if self.take("["):
            return self.array(depth + 1)
        if self.take("{"):
            return self.object(depth + 1)
        return self.integer()

    def integer(self):
        found = INTEGER.match(self.text, self.at)
        if not found or abs(int(found[0])) > 9007199254740991:
            raise Unreadable
        self.at = found.end()
        return int(found[0])

    def string(self):
        """What follows an opening quote, decoded."""
        parts = []
        while True:
            plain = PLAIN.match(self.text, self.at)
            parts.append(plain[0])
            self.at = plain.end()
            if self.text.startswith('"', self.at):
                self.at += 1
                return "".join(parts).encode("utf-8")
            found = ESCAPE.match(self.text, self.at)
            if not found:
                raise Unreadable
            short, high, low, code = found.groups()
            if short:
                parts.append(SHORT_ESCAPES[short])
            elif high:
                parts.append(chr(0x10000 + ((int(high, 16) - 0xD800) << 10) + int(low, 16) - 0xDC00))
            elif 0xD800 <= int(code, 16) < 0xE000:
                raise Unreadable
            else:
                parts.append(chr(int(code, 16)))
            self.at = found.end()

    def array(self, depth):
        if depth > 32:
            raise Unreadable
        items = []
        if self.take("]"):
            return items
        while True:
            items.append(self.value(depth))
            if self.take("]"):
                return items
            self.need(",")

    def object(self, depth):
        if depth > 32:
            raise Unreadable
        members = Members()
        if self.take("}"):
            return members
        while True:
            self.need('"')
            name = self.string()
            if any(name == other for other, _ in members):
                raise Unreadable
            self.need(":")
            members.append((name, self.value(depth)))
            if self.take("}"):
                return members
            self.need(",")


# ---- terms of antt

def numbers(items):
    """A list of numbers; a text is one."""
    return "(" + "".join(f"{item} ∷ " for item in items) + "[])"


# ---- cases

class Skip(Exception):
    """The case is not one for the definitions; the argument says why."""


class Check:
    """A call of the definitions, and the numbers that it is to give (SEEN, below, says which)."""

    def __init__(self, case, call, expected, texts=(), told=()):
        self.case = case
        self.call = call  # with {} for each text
        self.expected = expected
        self.texts = texts
        self.told = told  # which text is refused, and the place: they come before what is expected

    def kind(self):
        return self.call.split()[0]

    def numbers(self):
        return [*self.told, *self.expected]


# The texts, in the order of their numbers.
TEXTS = ["rule", "sheet", "record"]
# Of each entry: what is seen of it (SEEN, below), its stage in crates/pipeline/specs/Texts.antt, and the texts that this takes.
STAGES = {
    "check": ("seen_types", "check_stage", ["rule", "sheet"]),
    "fits": ("seen_fit", "fits_stage", ["sheet", "record"]),
    "evaluate": ("seen_answer", "evaluate_stage", ["rule", "record"]),
    "evaluate_with_sheet": ("seen_checked_answer", "evaluate_checked_stage", ["rule", "sheet", "record"]),
}


def text_of(case, key):
    return bytes.fromhex(case[key] or "")


def as_evaluate(case):
    """A case of the program as one of `evaluate`: the program prints what that gives."""
    stdout = bytes.fromhex(case["expect"]["stdout"])
    answer, refusal, steps = re.fullmatch(rb"(?:answer (.*)|refused ([0-9]+))\nsteps ([0-9]+)\n", stdout, re.DOTALL).groups()
    expect = {"refusal": int(refusal or 0), "steps": int(steps), "answer": (answer or b"").hex()}
    return {**case, "entry": "evaluate", "limit": PROGRAM_LIMIT, "out": PROGRAM_ROOM, "expect": expect}


def reading_of(case):
    """The check of a case of `read`: what its text reads as, or its refusal and place."""
    expect = case["expect"]
    if expect["refusal"]:
        seen = [expect["refusal"], expect["place"]]
    else:
        seen = [0, expect["values"], expect["nest"], *bytes.fromhex(expect["written"])]
    return Check(case, "seen_read (read {})", seen, [text_of(case, "text")])


def compare_reading(case):
    """Raises a ValueError if a case and the reader above do not agree on whether its texts read."""
    refusal = case["expect"]["refusal"]
    # The texts in the order in which they are read, each with the refusals that come before it: under those it may be anything.
    earlier = {"text": (), "rule": (), "sheet": (6,), "record": (6, 14, 13)}
    faulty = []
    for key in [key for key in earlier if key in case and refusal not in earlier[key]]:
        try:
            Reader(text_of(case, key)).read()
        except Unreadable:
            faulty.append(key)
    if 2 <= refusal <= 5 and not faulty:
        raise ValueError("each of its texts reads")
    if faulty and not 2 <= refusal <= 5:
        raise ValueError(f"its {faulty[0]} does not read")


def told_of(expect):
    """Which text is refused, and the place; 0 and 0 where none is."""
    return [1 + TEXTS.index(expect["text"]), expect["place"]] if "text" in expect else [0, 0]


def expected_of(entry, expect):
    """The numbers after those."""
    if entry == "check":
        return [expect["refusal"], sum(1 << WORDS.index(word) for word in expect.get("kinds", ()))]
    if entry == "fits":
        return [expect["refusal"], int(expect.get("fits", False))]
    return [expect["refusal"], expect["steps"], *bytes.fromhex(expect.get("answer", ""))]


def check_of(case):
    """The check of a case. A ValueError says what is wrong with the case."""
    printed = case["entry"] == "program"
    if printed:
        case = as_evaluate(case)
    entry, expect = case["entry"], case["expect"]
    if expect["refusal"] == 1 or "short" in case:
        raise Skip("work areas and the step limit: refusal 1")
    if entry not in ("read", *STAGES):
        raise ValueError(f"no entry is called {entry}")

    compare_reading(case)
    if entry == "read":
        return reading_of(case)
    seen, stage, keys = STAGES[entry]
    call = f"{'seen_printed' if printed else seen} ({stage}{' {}' * len(keys)})"
    if entry.startswith("evaluate"):
        call += f" {case['limit']} {case['out']}"
    return Check(case, call, expected_of(entry, expect), [text_of(case, key) for key in keys], () if printed else told_of(expect))


def sort_out(cases):
    """The checks of the cases; how many are skipped for each reason; and the faulty ones, with what is wrong."""
    checks, skipped, faulty = [], {}, []
    for case in cases:
        try:
            checks.append(check_of(case))
        except Skip as reason:
            skipped[str(reason)] = skipped.get(str(reason), 0) + 1
        except ValueError as fault:
            faulty.append((case, str(fault)))
    return checks, skipped, faulty


def shown(case, said):
    """A disagreement, for a reader."""
    texts = [f"{key} {bytes.fromhex(case[key] or '')[:200]!r}" for key in ("text", "rule", "sheet", "record") if key in case]
    expect = {key: bytes.fromhex(value)[:200] if key in ("answer", "written") else value for key, value in case["expect"].items()}
    differs = re.findall(r"computed as far as they go, (.*)", said) or said.splitlines()[:1]
    return f"disagrees: {case['id']} ({case['note']})\n  {case['entry']}: {', '.join(texts)}\n  expected: {expect}\n  {differs[0][:600]}"


# ---- the scratch repository

USES = """use Rattle.std.specs.Prelude.{cond, List, [], ◌∷◌, ◌≡◌, refl, ℕ, drop}
use Rattle.model.specs.Bytes.{Bytes}
use Rattle.model.specs.Judgement.{Judged, done, refuses, Answer, judged_number, answer_of}
use Rattle.model.specs.Refusal.{number, read_number}
use Rattle.model.specs.Sheet.{fits}
use Rattle.model.specs.Size.{value_count, nesting}
use Rattle.model.specs.Types.{type_bits}
use Rattle.model.specs.Writing.{value_text}
use Rattle.syntax.specs.Read.{Read, read}
use Rattle.syntax.specs.Read as readings
use Rattle.pipeline.specs.Stage.{Stage, passed, refused}
use Rattle.pipeline.specs.Texts.{TextsChecked, check_stage, TextsFitted, fits_stage, TextsRead, evaluate_stage, CheckedTextsRead, evaluate_checked_stage}
"""

SEEN = """
-- What a case says of an entry, as numbers. They begin with which text is refused and the place; both are 0 where no text is refused.
-- Then comes the refusal's number, or 0. What the entry gives comes last; it is 0 where the stage is refused: "Before evaluation steps are 0."
abbrev seen : {A : Type 0} → (A → List ℕ) → Stage A → List ℕ
seen given (passed a) = 0 ∷ 0 ∷ given a
seen given (refused e which place) = which ∷ place ∷ number e ∷ 0 ∷ []

abbrev text_in : Judged Bytes → Bytes
text_in (done s) = s
text_in (refuses e) = []

abbrev answered : Answer → List ℕ
answered a = judged_number a.result ∷ a.steps_begun ∷ text_in a.result

-- `evaluate` and `evaluate_with_sheet` give the steps and the bytes of the answer.
abbrev pub seen_answer : Stage TextsRead → ℕ → ℕ → List ℕ
seen_answer s limit room = seen (λ t. answered (answer_of t.rule.content t.«record» limit room)) s

abbrev pub seen_checked_answer : Stage CheckedTextsRead → ℕ → ℕ → List ℕ
seen_checked_answer s limit room = seen (λ t. answered (answer_of t.checked.rule.content t.«record» limit room)) s

-- `check` gives the bits of the types found.
abbrev pub seen_types : Stage TextsChecked → List ℕ
seen_types s = seen (λ c. 0 ∷ type_bits c.types ∷ []) s

-- `fits` gives 1 if the record fits, else 0.
abbrev pub seen_fit : Stage TextsFitted → List ℕ
seen_fit s = seen (λ t. 0 ∷ cond (fits t.sheet.content t.«record») 1 0 ∷ []) s

-- The program prints neither which text nor the place.
abbrev pub seen_printed : Stage TextsRead → ℕ → ℕ → List ℕ
seen_printed s limit room = drop 2 (seen_answer s limit room)

-- Of a text that reads: 0, the number of values, the nesting, and the bytes of the text as it is written. Of another: the refusal's number and the place.
abbrev pub seen_read : Read → List ℕ
seen_read (readings.done v) = 0 ∷ value_count v ∷ nesting v ∷ value_text v
seen_read (readings.refuse k p) = read_number k ∷ p ∷ []

-- Where this unfolds, so does every definition.
unfoldable pub definitions : ℕ
unfolding {}
definitions = 0
"""

# The crates of the definitions, lowest first, and those whose code declares types of them. A crate that states cases has a
# copy of the definitions: each check costs some seconds for what it loads, however little it has to do.
DEFINING = {"model": "Model", "syntax": "Syntax", "pipeline": "Pipeline"}
DECLARING = ["model", "syntax"]
# The modules that a text uses, but for those of declared types.
USED = re.compile(r"^(?:\w+ )*use Rattle\.(model|syntax|pipeline)\.specs\.(?!declared\b)(\w+)", re.MULTILINE)
PATH = re.compile(r"\bRattle\.(model|syntax|pipeline)\.specs\.(declared\b)?")
OF_ALL = re.compile(r"^(?:#!\[tactic\(auto\)\]|use (?:model|syntax)::.*;)\n", re.MULTILINE)


def source(crate, module):
    return (ROOT / "crates" / crate / "specs" / f"{module}.antt").read_text(encoding="utf-8")


def put(crate, file, text):
    path = SCRATCH / "crates" / crate / file
    path.parent.mkdir(parents=True, exist_ok=True)
    path.write_text(text, encoding="utf-8")


def place_of(crate, file):
    """Where a file of the definitions stands in a copy of them."""
    return re.sub("^specs/", f"specs/{DEFINING[crate]}/", file)


def moved(name, text):
    """A text of the definitions as it reads in the copy in a crate of this name."""
    return PATH.sub(lambda m: f"Rattle.{name}.specs.{m[2] or DEFINING[m[1]] + '.'}", text)


def needed_modules():
    """The modules that the cases need, which leaves the laws out: the crate and the name of each."""
    modules, found = [], USED.findall(USES)
    while found:
        module = found.pop()
        if module not in modules:
            modules.append(module)
            found += USED.findall(source(*module))
    return modules


def copy_definitions(name, modules):
    """Copies the modules into a crate of this name, and the code that declares their types."""
    for crate, module in modules:
        put(name, place_of(crate, f"specs/{module}.antt"), moved(name, source(crate, module)))
    for crate, above in DEFINING.items():
        put(name, f"specs/{above}.antt", "".join(f"pub mod {module}\n" for owner, module in modules if owner == crate))
    sources = [file for crate in DECLARING for file in sorted((ROOT / "crates" / crate / "src").glob("*.rt"))]
    texts = {file: file.read_text(encoding="utf-8") for file in sources}
    put(name, "src/lib.rt", "#![tactic(auto)]\n\n" + "".join(OF_ALL.sub("", text) for file, text in texts.items() if file.name == "lib.rt"))
    for file, text in texts.items():
        if file.name != "lib.rt":
            put(name, f"src/{file.name}", moved(name, text))
    put(name, "specs/Lib.antt", "".join(f"pub mod {above}\n" for above in [*DEFINING.values(), "Seen"]))


def unfoldable(module):
    """The definitions of a module that are marked `unfoldable`; a block of functions goes by the first."""
    return re.findall(r"^unfoldable (?:mutual\s+(?:--.*\s+)*)?(?:abbrev )?pub (?!use )(\S+)", source(*module), re.MULTILINE)


def named(crate, module, word):
    """What a definition is called where those of all modules stand side by side."""
    return f"{crate}'{module}'{word}" if word[0].isalpha() else f"◌{crate}'{module}'{word.strip('◌')}◌"


def declaration(name, checks, texts):
    calls = "\n    ∷ ".join([check.call.format(*[texts[text] for text in check.texts]) for check in checks] + ["[]"])
    expected = "\n    ∷ ".join([numbers(check.numbers()) for check in checks] + ["[]"])
    return f"{name} :\n    ({calls})\n    ≡ ({expected})\nunfolding definitions\n{name} = refl\n"


def write_cases(name, groups, modules):
    """Writes a name for each text, and a declaration for each group of checks, into a crate with the definitions."""
    opened = [(*module, word) for module in modules for word in unfoldable(module)]
    renamed = "".join(f"use Rattle.{crate}.specs.{module}.{{{word} as {named(crate, module, word)}}}\n" for crate, module, word in opened)
    unfolding = " ".join(named(*names) for names in opened)
    seen = f"use Rattle.{name}.specs.Seen.{{definitions, {', '.join(re.findall('^abbrev pub (.*) :', SEEN, re.MULTILINE))}}}\n"
    every = dict.fromkeys(text for checks in groups.values() for check in checks for text in check.texts)
    texts = {text: f"text-{number}" for number, text in enumerate(every)}
    stated = "".join(f"\nabbrev {word} : Bytes\n{word} = {numbers(text)}\n" for text, word in texts.items())
    put(name, "specs/Seen.antt", moved(name, USES + renamed) + SEEN.replace("{}", unfolding))
    put(name, "proofs/Lib.antt", "pub mod Cases\n")
    put(name, "proofs/Cases.antt", moved(name, USES) + seen + stated + "".join("\n" + declaration(group, checks, texts) for group, checks in groups.items()))


# ---- the run

def said_of(output, name):
    """What `rt all check` printed of a crate, and whether it is proved."""
    sections = re.split(r"^== (.*)\n", output, flags=re.MULTILINE)
    found = dict(zip(sections[1::2], sections[2::2]))
    return found.get(name, ""), re.search(rf"^{name}: ok$", found.get("summary", ""), re.MULTILINE) is not None


def refusals(output, name, groups):
    """The declarations of a crate that were refused, each with what antt said. None where the crate has no verdict on its declarations alone."""
    said, is_proved = said_of(output, name)
    if is_proved:
        return {}
    refused = {}
    for place, error in re.findall(r"^(?:\./)?(\S+?):\d+:\d+: error: (.*(?:\n  .*)*)", said, re.MULTILINE):
        found = re.match(r"`([^`]*)`: ", error)
        if place != "proofs/Cases.antt" or not found or found[1] not in groups:
            return None
        refused[found[1]] = error
    return refused or None


def in_scratch(name):
    """Has the scratch repository of this name made and checked."""
    global SCRATCH
    SCRATCH = scratch(name)


def clear():
    """Removes the sources of the scratch repository. What rt kept of them stays: it checks only what has changed since."""
    for crate in (SCRATCH / "crates").glob("*"):
        for part in ("src", "specs", "proofs"):
            shutil.rmtree(crate / part, ignore_errors=True)
    (SCRATCH / "output.txt").unlink(missing_ok=True)


def rt_check(names):
    """Has these crates of the scratch repository checked, and gives what rt printed."""
    for crate in (SCRATCH / "crates").iterdir():
        if crate.name not in names:
            shutil.rmtree(crate)
    (SCRATCH / "crates.txt").write_text("".join(f"{name}:\n" for name in names), encoding="utf-8")
    done = subprocess.run(["rt", "all", "check", "--jobs", str(JOBS)], cwd=SCRATCH, stdout=subprocess.PIPE, stderr=subprocess.STDOUT, check=False)
    output = done.stdout.decode("utf-8", "replace")
    with open(SCRATCH / "output.txt", "a", encoding="utf-8") as log:
        log.write(output)
    return output


def run(crates, modules):
    """Checks crates, each with its groups of checks; gives the refusals of each."""
    for name, groups in crates.items():
        copy_definitions(name, modules)
        write_cases(name, groups, modules)
    output = rt_check(list(crates))
    refused = {name: refusals(output, name, groups) for name, groups in crates.items()}
    if None in refused.values():
        said = [line for line in output.splitlines() if ": error" in line or line.startswith(("rt: ", "error"))]
        print(f"no verdict ({SCRATCH}/output.txt has all that rt said):", *[line[:300] for line in said[:5]], sep="\n  ")
    return refused


def by_text(check):
    """An order in which checks with the same texts stand together."""
    return [check.case.get(key) or "" for key in ("sheet", "record", "rule", "text")]


def weight(check, known):
    """What a check weighs in a declaration that has the known texts."""
    return LIGHT + sum(len(text) for text in set(check.texts) - known)


def grouped(checks, most):
    """Groups of checks that weigh no more in all, by the name of the first."""
    groups, room, known = [], 0, set()
    for check in sorted(checks, key=by_text):
        if weight(check, known) > room:
            groups.append([])
            room, known = most, set()
        room -= weight(check, known)
        known |= set(check.texts)
        groups[-1].append(check)
    return {group[0].case["id"]: group for group in groups}


def dealt(groups, name):
    """The groups dealt to as many crates as are checked at once."""
    return {f"{name}{number}": dict(list(groups.items())[number::JOBS]) for number in range(min(JOBS, len(groups)))}


def self_test(checks):
    """Groups with the shortest checks of each kind of call, one that is done and one with a text refused: as they are, and with one number changed."""
    shortest = {}
    for check in sorted(checks, key=lambda check: sum(len(text) for text in check.texts)):
        refusal = check.case["expect"]["refusal"]
        if refusal in (0, 2, 3, 4, 5):
            shortest.setdefault((check.kind(), refusal == 0), check)
    right = list(shortest.values())
    groups = {"right": right}
    for place, check in enumerate(right):
        given = check.numbers()
        # Which text and the place, the refusal, the first number given, and the last.
        for at in sorted({*range(min(4, len(given))), len(given) - 1}):
            changed = Check(check.case, check.call, [*given[:at], given[at] ^ 1, *given[at + 1 :]], check.texts)
            groups[f"wrong-{place}-{at}"] = [*right[:place], changed, *right[place + 1 :]]
    return groups


def judged(crates, refused):
    """The checks of the crates that are accepted, and the others, each with what was said of its group."""
    accepted, others = [], []
    for name, groups in crates.items():
        for declared, checks in groups.items():
            if refused[name] is None:
                others += [(check, "not decided") for check in checks]
            elif declared in refused[name]:
                others += [(check, refused[name][declared]) for check in checks]
            else:
                accepted += checks
    return accepted, others


def all_cases():
    cases = [json.loads(line) for path in sorted(VECTORS.glob("*.jsonl")) for line in path.read_text(encoding="utf-8").splitlines()]
    if len({case["id"] for case in cases}) < len(cases):
        sys.exit("two cases have one id")
    return cases


def self_tested(tests, wrong):
    """Whether exactly the wrong expectations are refused; says so."""
    tested = set(wrong) == set(tests) - {"right"}
    if tested:
        print(f"self-test: {len(wrong)} wrong expectations are refused")
    else:
        print(f"self-test FAILED: of {len(tests) - 1} wrong expectations and a right one these are refused: {', '.join(wrong) or 'none'}")
    return tested


def tried_alone(others, modules):
    """Of checks in refused groups, the ones that are accepted in a declaration of their own; and the cases of the rest, with what was said."""
    crates = dealt(grouped([check for check, _ in others[:SINGLED]], ALONE), "single")
    alone, refuted = judged(crates, run(crates, modules)) if crates else ([], [])
    disagreeing = [(check.case, said) for check, said in refuted]
    return alone, disagreeing + [(check.case, "in a refused group, and not tried by itself") for check, _ in others[SINGLED:]]


def print_findings(disagreeing, skipped):
    for case, said in disagreeing[:SHOWN]:
        print(shown(case, said))
    if len(disagreeing) > SHOWN:
        print(f"and {len(disagreeing) - SHOWN} more")
    for reason, count in skipped.items():
        print(f"skipped: {count} ({reason})")


def main():
    arguments = argparse.ArgumentParser(description=__doc__.splitlines()[0])
    arguments.add_argument("--self-test", action="store_true", help="only see that wrong expectations are refused")
    arguments.add_argument("--tally", action="store_true", help="end with one more line, 'N passed, M failed'")
    arguments.add_argument("only", nargs="*", metavar="ID", help="only the cases whose ids begin so")
    options = arguments.parse_args()
    began = time.monotonic()

    cases = all_cases()
    tests = self_test(sort_out(cases)[0])
    cases = [case for case in cases if case["id"].startswith(tuple(options.only or [""]))]
    checks, skipped, disagreeing = ([], {}, []) if options.self_test else sort_out(cases)

    in_scratch("definitions")
    clear()
    modules = needed_modules()
    crates = dealt(grouped(checks, TOGETHER), "trial")
    refused = run({**crates, "wrong": tests}, modules)
    tested = self_tested(tests, refused.pop("wrong") or {})
    if options.self_test:
        return 0 if tested else 1

    accepted, others = judged(crates, refused)
    alone, refuted = tried_alone(others, modules)
    disagreeing += refuted
    print_findings(disagreeing, skipped)
    agree = len(accepted) + len(alone)
    print(f"time: {time.monotonic() - began:.0f} s")
    print(f"definitions: {agree} agree, {len(disagreeing)} disagree, {sum(skipped.values())} skipped ({len(cases)} cases in all)")
    if options.tally:
        print(f"{agree + tested} passed, {len(disagreeing) + (not tested)} failed")
    return 0 if tested and agree and not disagreeing and agree + sum(skipped.values()) == len(cases) else 1


if __name__ == "__main__":
    sys.exit(main())
