#!/usr/bin/env python3
"""Counts and lists the places of the eight points of docs/DESIGN-PASS.md, by crate in the order of crates.txt.

usage, at the top of a checkout:
  tools/design_places.py                     the totals of all points
  tools/design_places.py 3 5                 the places of points 3 and 5, as the page lists them
  tools/design_places.py 3 --at COMMIT       the same in that commit, which git has to have; without --at: in the files as they are
  tools/design_places.py 3 --since COMMIT    the places of that commit, each marked: `stands` in the files as they are, or `gone`; then new ones.
                                             A place is known again by its list, its crate and its name

Points 1 to 7 read crates/*/src, point 8 reads crates/*/proofs. One function per point, `point_1` to `point_8`.
A list is found in one of two ways, and its heading says which. By rule: the script finds every place, new ones too.
By name: somebody read the sources of the first commit and wrote the names into this file; the script looks each up in its file, else in its
crate, and leaves out what is there no more.
"""
import collections, os, re, signal, subprocess, sys, tempfile

Place = collections.namedtuple("Place", "crate path line name note")
Part = collections.namedtuple("Part", "key title how places counted")


# ---- reading a tree

LITERAL = re.compile(r"//[^\n]*|b?\"(?:\\.|[^\"\\])*\"|b?'(?:\\[^'\n]+|[^'\\\n])'", re.S)


def masked(text):
    """The text with comments blank and strings and byte literals filled with `_`; every offset stays."""
    return LITERAL.sub(lambda m: re.sub(r"[^\n]", " " if m.group(0).startswith("//") else "_", m.group(0)), text)


def closing(text, i):
    """Where the bracket at i closes."""
    opens, closes, deep = text[i], {"(": ")", "{": "}", "[": "]", "<": ">"}[text[i]], 0
    while True:
        if text[i] == opens:
            deep += 1
        elif text[i] == closes and not (opens == "<" and text[i - 1] == "-"):
            deep -= 1
            if deep == 0:
                return i
        i += 1


def split_top(text, at):
    """Splits at a character outside all brackets."""
    out, deep, cur = [], 0, ""
    for before, ch in zip(" " + text, text):
        deep += (ch in "([{<") - (ch in ")]}>" and before + ch != "->")
        if ch == at and deep == 0:
            out.append(cur)
            cur = ""
        else:
            cur += ch
    return [x.strip() for x in out + [cur] if x.strip()]


class Item:
    """A function, type or constant: crate, path, line, name; a function's params, result, requires, body."""

    def __init__(self, crate, path, line, kind, name):
        self.crate, self.path, self.line, self.kind, self.name = crate, path, line, kind, name

    def place(self, note=""):
        return Place(self.crate, self.path, self.line, self.name, note)


class Tree:
    def __init__(self, root):
        self.root = root
        self.crates = re.findall(r"^([a-z0-9_]+)(?: staticlib)?:", open(f"{root}/crates.txt").read(), re.M)
        self.items, self.lines, self.imports, self.renamed = [], [], {}, {}
        for crate in self.crates:
            for path in self.files(crate, "src", ".rt"):
                self.read(crate, path)
        self.fns = [x for x in self.items if x.kind == "fn"]
        self.types = [x for x in self.items if x.kind in ("enum", "struct")]

    def files(self, crate, folder, ending):
        top, out = f"crates/{crate}/{folder}", []
        for at, _, names in os.walk(f"{self.root}/{top}"):
            out += [os.path.relpath(f"{at}/{n}", self.root) for n in names if n.endswith(ending)]
        return sorted(out)

    def read(self, crate, path):
        text = open(f"{self.root}/{path}").read()
        code = masked(text)
        line = lambda i: text.count("\n", 0, i) + 1
        self.lines += [(crate, path, n, l) for n, l in enumerate(code.split("\n"), 1)]
        self.imports[path] = {n: c for c, names in re.findall(r"ghost use Rattle\.(\w+)\.specs\.[\w.]+\.\{([^}]*)\}", text)
                              for n in re.findall(r"\w+", names)}
        self.renamed[path] = {b: a for a, b in re.findall(r"\b(\w+) as (\w+)", " ".join(re.findall(r"^use [^;]*;", code, re.M)))}
        impls = [(m.start(), closing(code, m.end() - 1), re.match(r"\w*", m.group(1).split(" for ")[-1]).group(0))
                 for m in re.finditer(r"^impl(?:<[^>]*>)? ([^{]*)\{", code, re.M)]
        for m in re.finditer(r"^[ \t]*(?:pub(?:\([^)]*\))? )?const (\w+)\s*:\s*([^=]+?)\s*=\s*([^;]*);", code, re.M):
            x = Item(crate, path, line(m.start(1)), "const", m.group(1))
            x.type, x.value = m.group(2), re.sub(r"\s+", " ", text[m.start(3):m.end(3)])
            self.items.append(x)
        for m in re.finditer(r"^[ \t]*(?:pub(?:\([^)]*\))? )?(enum|struct) (\w+)(?:<[^>]*>)?\s*\{", code, re.M):
            x = Item(crate, path, line(m.start(1)), m.group(1), m.group(2))
            end = closing(code, m.end() - 1)
            x.parts = split_top(re.sub(r"\s+", " ", code[m.end():end]), ",")
            x.part_lines = [(line(m.end() + k.start(1)), k.group(1), k.group(2).strip())
                            for k in re.finditer(r"(?:pub )?(\w+)\s*:\s*([^,\n]+)", code[m.end():end])] if x.kind == "struct" else []
            self.items.append(x)
        for m in re.finditer(r"\bfn (\w+)", code):
            owner = [n for a, b, n in impls if a < m.start() < b]
            x = Item(crate, path, line(m.start()), "fn", (owner[0] + "::" if owner else "") + m.group(1))
            i = m.end()
            if code[i] == "<":
                i = closing(code, i) + 1
            j = closing(code, i)
            x.params = []
            for p in split_top(re.sub(r"\s+", " ", code[i + 1:j]), ","):
                k = re.match(r"(?:mut )?(\w+) ?: ?(.*)", p)
                x.params.append((k.group(1), k.group(2)) if k else (p, ""))
            x.names = [n for n, _ in x.params]
            x.c_entry = 'extern "C"' in text[text.rfind("\n", 0, m.start()) + 1:m.start()]
            x.requires, x.result, i = [], "", j + 1
            while True:
                # A clause, the body, or the `;` of a method that has none.
                start, deep = i, 0
                while code[start] not in "{;" or deep:
                    deep += (code[start] in "([") - (code[start] in ")]")
                    start += 1
                clause = re.search(r"\b(requires|ensures)\b\*?\s*\w*\s*$", code[i:start])
                x.result = x.result or code[i:start][:clause.start() if clause else None].strip().removeprefix("->").strip()
                if code[start] == ";" or not clause:
                    break
                i = closing(code, start) + 1
                if clause.group(1) == "requires":
                    x.requires.append(text[start + 1:i - 1].strip())
            end = start if code[start] == ";" else closing(code, start)
            x.code, x.first_line, x.last_line = code[start + 1:end], line(start), line(end)
            self.items.append(x)

    def within(self, path, line):
        """The function that a line stands in."""
        for f in self.fns:
            if f.path == path and f.line <= line <= f.last_line:
                return f
        return None

    def find(self, where):
        """`crate/file name`: the item of that name in that file, else in that crate."""
        at, name = where.split(" ", 1)
        crate, file = at.split("/", 1)
        same = [x for x in self.items if x.crate == crate and x.name == name]
        there = [x for x in same if x.path == f"crates/{crate}/src/{file}"]
        return (there or same or [None])[0]

    def named(self, lists):
        """Places by name. Lines `crate/file: name, name (note), name`."""
        out = []
        for l in lists.strip().split("\n"):
            at, names = l.strip().split(": ", 1)
            for n in split_top(names, ","):
                name, note = re.match(r"([\w:]+)(?: \((.*)\))?$", n).groups()
                x = self.find(f"{at} {name}")
                if x:
                    out.append(x.place(note or ""))
        return out

    def sorted(self, places):
        order = {c: n for n, c in enumerate(self.crates)}
        return sorted(places, key=lambda p: (order[p.crate], p.path, p.line))


INTEGER = re.compile(r"(?:&mut )?(?:usize|u8|u16|u32|u64|i64)$")
BY_RULE, BY_NAME = "by rule", "by name"


# ---- 1. Option, Result, and numbers for kinds and refusals

# Names of variants that mean absence or error.
ABSENT = re.compile(r"(No[A-Z]\w*|Not[A-Z]\w*|Nowhere|Nothing|Neither|Never|Absent|Outside|Unknown|Bad\w*|Late|OutOf\w+|Too[A-Z]\w+"
                    r"|OutputTooShort|WrongKind|Mismatch|Failed|Broken|Denies|Refused|Same|Cells)$")
NUMBER_NAMES = r"(number|kind|tag|refusal|which|mark|words)"

# A number that stands where there is no value, or where there was an error.
SENTINELS = """
table/row.rt: Row (name 0 and 0: no member), row_at (kind 0: no row)
table/node.rt: next_row (the row itself: no row)
name_index/lib.rt: NO_STOP (above every rank: no stop), node_of (0: no node), rank_of (stop: no rank)
name_index/items.rt: double_at (0: no entry)
json_reader/row.rt: Label (0 and 0: no member)
viewer/part.rt: next (0: not there), skip (0: not there), part_from (tests for 0)
viewer/row.rt: integer_of (0: no integer)
calendar/instant.rt: Instant::since_year_0 (0: before year 0)
instants/shift.rt: shift_month (RANGE_MONTHS: out of range)
dates/pattern.rt: digit_at (0: no digit)
heap/part.rt: next_cell (the cell itself: no cell)
print/string.rt: letter (0: no letter), put_string (MAX_TEXT_BYTES + 1: too long)
rule/mark.rt: mark_at (0: no mark)
rule/view.rt: integer_in (0: no integer), bare_integer (0: no integer)
pipeline/number.rt: numbered (which 0 and place 0: no text)
admit/main.rt: read_full (what was read: a read failed), read_file (0: no file)
test_vectors/main.rt: read_full (what was read: a read failed), read_file (0: no file)
test_dates/main.rt: read_full (what was read: a read failed)
"""

# Functions that take or give a number for a kind under names that no rule finds.
NUMBERED = """
name_index/lib.rt: turn, fork
days/month.rt: row
keywords/lib.rt: keyword_at, spelled, unit_at
text_types/lib.rt: type_at
test_calendar/lib.rt: put_date
"""

# Lines with a literal refusal's, row kind's or text's number.
LITERAL_NUMBER = re.compile(r"\b(?:fault|no_name|fail|numbered|refused|read_text)\(\d+|\b(?:number|refusal|which|kind): \d+"
                            r"|\brefusal (?:==|!=) \d+|\bkind (?:==|!=|<|<=) \d+|Fault::\w+ => \d+")
# Functions whose literal numbers stand for marks, keywords, units, types and leap years, and the lines that have them.
MARKING = {"rule": "comparison_mark compare_mark unit_mark op_mark mark_of operands_view path_view", "type_set": "number only bits",
           "keywords": "keyword_at unit_at of_one_byte of_two_bytes of_three_bytes of_six_bytes keyword_named", "text_types": "type_at",
           "test_calendar": "unit_of", "days": "row"}
MARKING_LINE = re.compile(r"=> \d+\b|^\s*\d+ => (?!\w*_of_|of_|spelled)|keyword_at\(\d+\)|spelled\(.*\d\)|\b(?:n|number) == \d+|\bbit\(s\.\w+, \d+\)|return [01];|^ {4}1$")


def variants(x):
    return [re.match(r"\w+", p).group(0) for p in x.parts]


def taken_apart(t, f, enums):
    """Which of these enums' variants stand in a pattern of a function: of a `match`, of `let` with `else`, or of `if let`."""
    patterns = [m.group(1) for m in re.finditer(r"\blet (\w+::[^=;]*?) = ", f.code)]
    patterns += [m.group(0) for m in re.finditer(r"\b\w+::\w+(?:\([^()]*\)|\s*\{[^{}]*\})?\s*=>", f.code)]
    found = []
    for pattern in patterns:
        for enum, variant in re.findall(r"\b(\w+)::(\w+)", pattern):
            enum = t.renamed[f.path].get(enum, enum)
            if (enum, variant) in enums and enum not in found:
                found.append(enum)
    return found


def point_1(t):
    one, more = [], []
    for x in t.types:
        if x.kind == "enum":
            bad = [v for v in variants(x) if ABSENT.match(v)]
            if bad and len(bad) < len(x.parts):
                (one if len(bad) == 1 else more).append(x.place(" | ".join(x.parts)))
    beside = [x.place(", ".join(n for _, n, _ in x.part_lines)) for x in t.types if x.kind == "struct"
              and any((n in ("refusal", "number", "kind", "tag") and INTEGER.match(ty)) or ty == "Stop" for _, n, ty in x.part_lines)]
    constants = [x.place(x.value) for x in t.items if x.kind == "const"
                 and (re.search(r"_(ROW|TAG)$", x.name) or x.type == "u32")]
    fields = [Place(x.crate, x.path, line, f"{x.name}.{n}", "") for x in t.types if x.kind == "struct"
              for line, n, ty in x.part_lines if re.fullmatch(NUMBER_NAMES, n) and INTEGER.match(ty)]
    functions = [f.place() for f in t.fns
                 if any(re.fullmatch(NUMBER_NAMES, n) and INTEGER.match(ty) for n, ty in f.params)
                 or (INTEGER.match(f.result) and re.search(r"^(number|bits|kind_of|mark_of|mark_at)$|_(tag|mark)$", f.name))
                 or (f.c_entry and f.result == "u32")]
    functions += [p for p in t.named(NUMBERED) if p not in functions]
    enums = {(x.name, v) for x in t.types if x.kind == "enum" and any(ABSENT.match(v) for v in variants(x))
             and not all(ABSENT.match(v) for v in variants(x)) for v in variants(x)}
    apart = [f.place(", ".join(found)) for f in t.fns for found in [taken_apart(t, f, enums)] if found]
    literals, marks = [], {}
    for crate, path, n, l in t.lines:
        f = t.within(path, n)
        if not f:
            continue
        if LITERAL_NUMBER.search(l) or (f.c_entry and f.result == "u32" and re.search(r"return \d+;", l)):
            literals.append(Place(crate, path, n, f.name, ""))
        if f.name in MARKING.get(crate, "").split() and MARKING_LINE.search(l) and n > f.first_line:
            marks[f] = marks.get(f, 0) + 1
    return [
        Part("1a", "Enums with exactly one variant that means absence or error", BY_RULE, one, True),
        Part("1b", "Enums with a value and more than one variant that means absence or error", BY_RULE, more, True),
        Part("1c", "Structs with a refusal's, kind's or tag's number, or a `Stop`, beside values", BY_RULE, beside, True),
        Part("1d", "Constants that number kinds and refusals", BY_RULE, constants, True),
        Part("1e", "Fields that hold a number for a refusal, kind, tag, text or set of types", BY_RULE, fields, True),
        Part("1f", "Functions that take or give a number for a refusal, kind, tag, mark, side, text, keyword, unit or type", BY_RULE, functions, True),
        Part("1g", "Lines with a literal number of a refusal, row kind or text", BY_RULE, literals, True),
        Part("1h", f"Functions with literal numbers of marks, keywords, units, types or leap years, on {sum(marks.values())} lines", BY_RULE,
             [f.place(f"{n} lines") for f, n in marks.items()], True),
        Part("1i", "Numbers that stand for no value or for an error", BY_NAME, t.named(SENTINELS), True),
        Part("1j", "Functions that take an enum of 1a or 1b apart by a pattern, where `?`, `map` or `ok_or` may do", BY_RULE, apart, True),
    ]


# ---- 2. twins

# Each group: what its members do. Members differ in a type, a size, a constant, a predicate or one called function.
FUNCTION_TWINS = """
zeros from a place on; to the end or to another place
  area/lib.rt: clear_from, clear_between
the least of two numbers
  area/lib.rt: lesser
  print/put.rt: least
  viewer/row.rt: row_count
one less, 0 of 0
  table/node.rt: less
  heap/part.rt: less
  days/month.rt: place
64 bits of two halves
  table/row.rt: join
  heap/cell.rt: joined
whether all of eight bytes are so
  octets/lib.rt: eight_same
  print/string.rt: eight_plain
past bytes that are so, eight at a time
  octets/lib.rt: same_eights
  print/string.rt: plain_eights
whether two slices are equal
  octets/lib.rt: same
  test_dates/main.rt: same
where a run of bytes ends
  octets/path.rt: fragment_end
  scan/token.rt: skip_white
  dates/pattern.rt: digit_run
  print/string.rt: plain_end
  test_vectors/main.rt: past
  test_dates/main.rt: find
a byte that needs no escape
  chars/lib.rt: is_plain
  print/string.rt: is_plain
copies plain bytes, to the text's end or sixteen
  chars/lib.rt: plain_run, plain_start
copies bytes one by one
  chars/lib.rt: copy
  print/put.rt: put_bytes
  test_calendar/lib.rt: put_text
the row after a value and its parts
  table/node.rt: next_row
  viewer/part.rt: end_of
enters a name, by rows or by slots
  name_index/lib.rt: enter, enter_slot
a fault as an answer
  scan/number.rt: fault
  chars/lib.rt: fault
  json_reader/name.rt: no_name
  json_reader/step.rt: fail
what follows an opening bracket or brace
  json_reader/tree.rt: array, object
all items, all members
  json_reader/tree.rt: all_items, all_members
reads rows, and clears or enters the index
  json_reader/lib.rt: read_indexed, read
whether rows are all the parts of an array or an object
  paths/owner.rt: are_items, are_members
the walk along a path, by rows or by cells
  paths/lib.rt: member, item_named, part, find
  op_lookup/lib.rt: member, item_named, part, value_at
digits into a number, up to a bound
  paths/index.rt: read_index
  test_dates/main.rt: read_digits
a digit more
  test_vectors/main.rt: with_digit
  test_dates/main.rt: with_digit
the row at a place, for a viewer or for a table and a place
  viewer/row.rt: find_row
  viewer/view.rt: row, row_at
the part at a place, for a viewer or for a table and a place
  viewer/part.rt: find_part
  viewer/view.rt: part, part_at
the earliest and the latest instant
  calendar/instant.rt: Instant::first, Instant::last
a move on or back, in milliseconds or in months
  instants/shift.rt: shift_time, shift_month
an offset ahead of UTC or behind
  dates/offset.rt: ahead, behind
by the form of the parts: rows or cells
  heap/part.rt: head, next
keywords of three bytes, of six
  keywords/lib.rt: of_three_bytes, of_six_bytes
the unit or type of a name
  keywords/lib.rt: unit_named
  text_types/lib.rt: type_named
  test_dates/main.rt: unit_of
the keyword, unit or type of a number
  keywords/lib.rt: keyword_at, unit_at
  text_types/lib.rt: type_at
  test_calendar/lib.rt: unit_of
what a string of a table names
  rule/operation.rt: unit_at
  sheet/content.rt: type_at
operands within bounds
  rule/operation.rt: counted_operands, and_operands
an operation with an integer behind its operand, from the text
  rule/operation.rt: plus_time, extract
the same, from the mark
  rule/view.rt: plus_time_view, extract_view
a comparison of two, of three
  op_scalars/compare.rt: compare, compare_three
whether parts are those of an array
  op_scalars/equal.rt: is_array
  eval/take.rt: elements_in
a date text's instant
  op_dates/lib.rt: plus_time, date_of_birth
the handle of a literal or node
  heap/handle.rt: of_node
  eval/literal.rt: literal_of
  eval/start.rt: literal
sets of scalars
  type_set/set.rt: scalars, any_of_record, any_value
whether a text is a date of a kind
  text_types/lib.rt: is_day, is_date
whether all rows are so
  sheet/belong.rt: all_of_kind
  sheet/check.rt: are_entries
  sheet/fit.rt: all_fit
what follows of the object in row 0 of a sheet
  sheet/check.rt: is_sheet
  sheet/fit.rt: fits
  sheet/listed.rt: types_for
reads a rule, reads a sheet
  pipeline/text.rt: read_rule
  pipeline/sheet_text.rt: read_sheet
two texts, then a check of both
  pipeline/check.rt: check_texts
  pipeline/fit.rt: fit_texts
a text that is refused before evaluation
  jehvrukam/evaluate.rt: not_run
  jehvrukam/evaluate_checked.rt: not_run
the entry of evaluation, without a sheet and with one
  jehvrukam/lib.rt: jehvrukam_evaluate, jehvrukam_evaluate_checked
evaluation from texts, without a sheet and with one
  jehvrukam/evaluate.rt: judge
  jehvrukam/evaluate_checked.rt: run_checked
the entry of two texts
  jehvrukam/lib.rt: jehvrukam_check, jehvrukam_fits
where a string or a name lies
  jehvrukam/view.rt: jehvrukam_view_string, jehvrukam_view_name
areas at the end of a call
  jehvrukam/settle.rt: settle_text, settle_work
the entries of the library, and the exports that call them
  jehvrukam/lib.rt: jehvrukam_read, jehvrukam_check, jehvrukam_fits, jehvrukam_evaluate, jehvrukam_evaluate_checked
  jehvrukam/view.rt: jehvrukam_view, jehvrukam_view_part, jehvrukam_view_integer, jehvrukam_view_string, jehvrukam_view_name
  jehvrukam_c/lib.rt: jehvrukam_read, jehvrukam_check, jehvrukam_fits, jehvrukam_evaluate, jehvrukam_evaluate_checked
  jehvrukam_c/lib.rt: jehvrukam_view, jehvrukam_view_part, jehvrukam_view_integer, jehvrukam_view_string, jehvrukam_view_name
evaluates in lent areas
  admit/main.rt: evaluate_in
  test_vectors/main.rt: evaluate_in
evaluates in areas of its own
  admit/main.rt: evaluate
  test_vectors/main.rt: evaluate
reads until a buffer is full
  admit/main.rt: read_full
  test_vectors/main.rt: read_full
  test_dates/main.rt: read_full
reads a file into a buffer
  admit/main.rt: read_file
  test_vectors/main.rt: read_file
an array of zeros
  test_vectors/main.rt: zeros
  test_dates/main.rt: zeros
counts a case that agrees or differs
  test_vectors/main.rt: count
  test_dates/main.rt: Count::counted
a number of digits, with a sign
  test_dates/main.rt: positive, negative
a vector of a date, of a day
  test_dates/main.rt: date_agrees, day_agrees
reads a date, reads a day, for C
  test_calendar/lib.rt: calendar_read_date, calendar_read_day
"""

TYPE_TWINS = """
a number of a place, or none
  octets/names.rt: Position
  name_index/find.rt: Found
  name_index/lib.rt: Compared
  paths/index.rt: Index
  viewer/part.rt: PartAnswer
a number of 64 bits, or none
  days/day.rt: MonthAnswer
  dates/offset.rt: Size
  op_scalars/compare.rt: Number
  test_dates/main.rt: Digits
a byte's number, or none
  syntax/lib.rt: Hex
  scan/token.rt: Decimal
a unit, or none
  keywords/lib.rt: UnitAnswer
  test_dates/main.rt: Unit
  test_calendar/lib.rt: UnitAnswer
types, or none
  sheet/content.rt: Content
  type_check/found.rt: Found
  type_check/operation.rt: FoundAll
how far reading came, or its fault
  scan/number.rt: Numeral
  scan/token.rt: WordMatch
  chars/lib.rt: Decoded
  json_reader/lib.rt: TextStep
  json_reader/name.rt: NameStep
  json_reader/step.rt: Step
a value, or a refusal, and what is left or was begun
  operations/ended.rt: Ended
  eval/lib.rt: Outcome
an answer, or 7, 8 or 9
  calendar/instant.rt: InstantAnswer, DateAnswer
  op_result/lib.rt: Operated
a part of a strings area
  table/row.rt: Span
  json_reader/row.rt: Label
  heap/handle.rt: Span
so many parts from an index on
  table/node.rt: Rows
  heap/handle.rt: Parts
so much on, or back
  instants/shift.rt: Move
  dates/offset.rt: Offset
a refusal, the types or the fit
  pipeline/check.rt: Checked
  pipeline/fit.rt: Fitted
what an entry tells
  jehvrukam/evaluate.rt: Outcome
  jehvrukam/evaluate_checked.rt: CheckedOutcome
  test_vectors/main.rt: Outcome
a refusal, the steps and the answer's size
  eval/lib.rt: Answer
  admit/main.rt: Outcome
how many agree and differ
  test_vectors/main.rt: Tally
  test_dates/main.rt: Count
"""

CONSTANT_TWINS = """
the months of the range
  days/day.rt: RANGE_MONTHS
  instants/shift.rt: RANGE_MONTHS
the bytes of the cells
  admit/main.rt: CELLS_BYTES
  test_vectors/main.rt: CELLS_BYTES
the room for an answer
  admit/main.rt: OUTPUT_BYTES
  test_vectors/main.rt: OUTPUT_BYTES
the most bytes of a test's input
  test_vectors/main.rt: FILE_BYTES
  test_dates/main.rt: ROOM
the number of success
  test_calendar/lib.rt: DONE
  test_writer/lib.rt: DONE
"""


def twin_groups(t, lists):
    """(what the members do, places); a group of which one member is left, or none, is no group any more."""
    groups, title = [], None
    for l in lists.strip().split("\n"):
        if not l.startswith(" "):
            groups.append((l, []))
        else:
            groups[-1][1].extend(t.named(l))
    return [(title, places) for title, places in groups if len(places) > 1]


def same_bodies(t):
    """Functions whose bodies are the same up to names and literals."""
    words = set("if else match return let mut while loop for in as break continue true false".split())
    by = collections.defaultdict(list)
    for f in t.fns:
        body = [w if w in words else "L" if re.match(r"__|\d|_$", w) else "I" if re.match(r"\w", w) else w
                for w in re.findall(r"\w+|[^\s\w]", f.code)]
        if len(body) >= 12:
            by[" ".join(body)].append(f)
    return [fs for fs in by.values() if len(fs) > 1]


TWIN = "that differ in a type, a size, a constant, a predicate, one called function or one more text"


def point_2(t):
    parts = []
    for key, title, lists in (("2a", f"Functions {TWIN}", FUNCTION_TWINS), ("2b", "Types that differ in a type or in a field", TYPE_TWINS),
                              ("2c", "Constants that are written twice", CONSTANT_TWINS)):
        groups = twin_groups(t, lists)
        places = [p._replace(note=what) for what, ps in groups for p in ps]
        parts.append(Part(key, f"{title}: {len(groups)} groups", BY_NAME, places, True))
    bodies = same_bodies(t)
    places = [f.place(f"like {fs[0].name} of {fs[0].crate}") for fs in bodies for f in fs]
    parts.append(Part("2d", f"A check on 2a: functions whose bodies are the same up to names and literals: {len(bodies)} groups", BY_RULE, places, False))
    return parts


# ---- 3. loops

# `loop`s in which the body counts a number on.
COUNTING_LOOPS = {("chars", "from_piece"), ("days", "date_in_year")}


def point_3(t):
    whiles, counting, other, fors = [], [], [], []
    for crate, path, n, l in t.lines:
        f = t.within(path, n)
        if not f:
            continue
        m = re.match(r"\s*while (?!let )(.*?) \{?$", l)
        if m:
            whiles.append(Place(crate, path, n, f.name, m.group(1)))
        if re.match(r"\s*loop \{", l):
            (counting if (crate, f.name) in COUNTING_LOOPS else other).append(Place(crate, path, n, f.name, ""))
        m = re.match(r"\s*for (\w+ in \d+\.\.\S+)", l)
        if m:
            fors.append(Place(crate, path, n, f.name, m.group(1)))
    return [
        Part("3a", "`while` loops, with their conditions", BY_RULE, whiles, True),
        Part("3b", "`loop`s whose body counts a number on", BY_NAME, counting, True),
        Part("3c", "Other `loop`s, which count no number on", BY_RULE, other, False),
        Part("3d", "`for` loops over numbers that index slices", BY_RULE, fors, False),
    ]


# ---- 4. by hand: equality, order, copying, conversion, printing

EQUALITY = """
octets/lib.rt: equal, eight_same, same_eights, same
octets/path.rt: is_one_of
name_index/items.rt: is_array
name_index/lib.rt: common
scan/number.rt: is_part
scan/token.rt: is_white, compare
chars/lib.rt: is_plain
print/string.rt: is_plain
op_scalars/equal.rt: is_scalar, is_null, is_boolean, is_integer, is_string, same_scalar, is_array
text_types/lib.rt: is_instant
sheet/belong.rt: all_of_kind
sheet/check.rt: lists_types
test_vectors/main.rt: is_expected, is_text
test_dates/main.rt: is_number, same
"""

ORDER = """
area/lib.rt: lesser
table/node.rt: less
name_index/find.rt: find (range)
name_index/items.rt: has_entry (range)
name_index/lib.rt: node_of (range)
chars/lib.rt: lead_of (ranges), long_lead_of (ranges), tails (range), unit_of (ranges)
paths/index.rt: read_index (range)
paths/owner.rt: owner (range)
viewer/row.rt: row_count, is_integer (range)
days/day.rt: is_valid (range)
days/month.rt: place
calendar/instant.rt: Instant::new (range)
dates/pattern.rt: fits (range)
heap/part.rt: less
print/put.rt: least
op_scalars/compare.rt: holds
op_scalars/sum.rt: total (range)
test_vectors/main.rt: takes_digit (range)
test_dates/main.rt: with_digit (range)
"""

COPYING = """
area/lib.rt: clear_from (bytes), clear_between (bytes)
chars/lib.rt: plain_run (bytes), plain_start (bytes), copy (bytes)
json_reader/list.rt: moved (fields)
json_reader/row.rt: filled (fields)
heap/part.rt: tail (fields)
print/put.rt: put_bytes (bytes)
rule/operation.rt: first_of (fields)
rule/view.rt: plus_time_view (fields), extract_view (fields)
operations/lib.rt: copy (cells), list (fields)
eval/literal.rt: one_step (fields), one_begun (fields)
eval/run.rt: resumed (fields)
eval/start.rt: first (fields), start (fields)
eval/take.rt: after_guard (fields), after_conjunct (fields), after_source (fields), next_item (fields), arguments (fields), after_argument (fields), take (fields)
type_check/check.rt: find_reduce (fields)
type_check/env.rt: inner (fields)
test_vectors/main.rt: count (fields)
test_dates/main.rt: Count::counted (fields)
test_calendar/lib.rt: put_text (bytes)
"""

CONVERSION = """
area/lib.rt: put_word, get_word, wide
table/node.rt: node_of
table/row.rt: row_at, join
name_index/lib.rt: link_at (bits), rank_of (bits), put_node (bits)
scan/number.rt: fault, signed
scan/token.rt: decimal_of
chars/lib.rt: fault, escape_of, hex_of, code_unit, put_utf8, pair
json_reader/lib.rt: read_rows (an Answer)
json_reader/name.rt: no_name
json_reader/row.rt: put_row
json_reader/scalar.rt: kind_of, read_number (halves)
json_reader/step.rt: fail
viewer/row.rt: integer_of
calendar/instant.rt: Instant::from_year_0, Instant::milliseconds, Instant::since_year_0, dated, midnight
instants/shift.rt: move_of
dates/day.rt: date_in
dates/lib.rt: read_day, read_date
dates/offset.rt: offset_digits, ahead, behind, to_utc
heap/cell.rt: span_tag, parts_tag, pack, joined, unpack
heap/handle.rt: of_node
keywords/lib.rt: keyword_at, keyword_named, unit_at, unit_named
rule/mark.rt: comparison_mark, compare_mark, unit_mark, op_mark, mark_of
rule/operation.rt: unit_at
rule/view.rt: integer_in, operands_view, path_view, marked_view
op_scalars/boolean.rt: boolean
op_scalars/compare.rt: as_number
op_scalars/truth.rt: truthy_unless, truth_of
op_lookup/lib.rt: place_of
op_dates/lib.rt: instant, signed
operations/lib.rt: operated
eval/lib.rt: number, refused, written
eval/literal.rt: literal_of
eval/start.rt: literal
eval/take.rt: elements_of, elements_in
type_set/set.rt: number, only, bit, bits
text_types/lib.rt: type_at, type_named
sheet/belong.rt: kind_of
sheet/content.rt: type_at
sheet/entry.rt: types_of
type_check/operation.rt: accepted, domain_type
pipeline/check.rt: found
pipeline/number.rt: numbered
pipeline/text.rt: told
jehvrukam/evaluate.rt: not_run, judge (an Outcome)
jehvrukam/evaluate_checked.rt: not_run, ended
jehvrukam/told.rt: yes_or_no
test_vectors/main.rt: with_digit, read_number
test_dates/main.rt: read_digits, positive, negative, read_number, kind_of, unit_of
test_calendar/lib.rt: put_date, unit_of
"""

PRINTING = """
instants/text.rt: digit, text_of, InstantText::new
print/decimal.rt: digits_of, put_decimal
print/instant.rt: put_instant
print/string.rt: letter, hex, put_escape, put_some, put_quoted, put_string
writer/part.rt: opening, put_label, put_front
writer/scalar.rt: put_integer, put_since, put_scalar
writer/value.rt: write_compound, write_parts
admit/main.rt: put_line, put_number_line, put_result
test_vectors/main.rt: print_first_line
test_dates/main.rt: take_line
"""

# A set of types as eleven flags, each function with a line for each flag.
FLAGS = """
type_set/set.rt: none, has, union, passes, scalars_with, items_of
"""

# A test of an index by hand before it is used, in a form that the rule of 4f does not find.
TESTED = """
table/string.rt: part_of
rule/mark.rt: put_mark, mark_at
op_lookup/lib.rt: cell_after
operations/lib.rt: operand
"""


def point_4(t):
    fields = []
    for crate, path, n, l in t.lines:
        m = re.match(r"\s*let (\w+) = (?:\w+\.)+(\w+);\s*$", l)
        if m and m.group(1) == m.group(2) and t.within(path, n):
            fields.append(Place(crate, path, n, t.within(path, n).name, l.strip()))
    tested = []
    for f in t.fns:
        for m in re.finditer(r"if (\w+)\.len\(\) <= ([^{]+?) \{|if ([^{]+?) (?:>=|<) (\w+)\.len\(\) \{", f.code):
            slice_, index = m.group(1) or m.group(4), m.group(2) or m.group(3)
            if f"{slice_}[{index}]" in f.code:
                tested.append(Place(f.crate, f.path, f.first_line + f.code.count("\n", 0, m.start()), f.name, f"{slice_}[{index}]"))
    return [
        Part("4a", "Equality: of bytes, slices, handles and variants, and classes of bytes", BY_NAME, t.named(EQUALITY), True),
        Part("4b", "Order: the lesser, one less, a comparison, tests of one value against a lower and an upper bound", BY_NAME, t.named(ORDER), True),
        Part("4c", "Copying: bytes or cells one by one, or a struct's fields one by one into another of its type", BY_NAME, t.named(COPYING), True),
        Part("4d", "Copying: a field into a variable of its name", BY_RULE, fields, True),
        Part("4e", "Conversion: a value of one type into one of another, or from or to bytes and bits", BY_NAME, t.named(CONVERSION), True),
        Part("4f", "An index tested by hand before it is used, where `get` would do", BY_RULE, tested, True),
        Part("4g", "The same in other forms", BY_NAME, t.named(TESTED), True),
        Part("4h", "Printing", BY_NAME, t.named(PRINTING), True),
        Part("4i", "Sets written out flag by flag", BY_NAME, t.named(FLAGS), True),
    ]


# ---- 5. facts in contracts, parameters together

def conjuncts(fact):
    out = []
    for x in split_facts(fact.strip()):
        if x.startswith("(") and closing(x, 0) == len(x) - 1:
            out += conjuncts(x[1:-1])
        else:
            out.append(x)
    return out


def split_facts(text):
    out, deep, cur = [], 0, ""
    for ch in text:
        deep += (ch in "([{") - (ch in ")]}")
        if ch == "×" and deep == 0:
            out.append(cur.strip())
            cur = ""
        else:
            cur += ch
    return out + [cur.strip()]


def fact_key(t, f, fact):
    """A definition's name with the crate it stands in; or the fact's text with the types of its parameters, where it names no definition."""
    head = fact.split()[0]
    if re.fullmatch(r"[A-Z]\w*", head):
        return f"{head} (of {t.imports[f.path].get(head, f.crate)})", ""
    text = re.sub(r"\.(now|old|entry)\b", "", fact)
    types = {n: re.sub(r"&|\bmut\b|'\w+", "", ty).replace(" ", "") for n, ty in f.params}
    return text, " ".join(f"{n}:{types[n]}" for n in sorted(set(re.findall(r"\w+", text))) if n in types)


TABLES = "table rule_table sheet_table record_table".split()
# A group: its name, and for each of its parameters the names, or the type, that it goes by; names that none of its functions has.
GROUPS = [
    ("rule_table, rule_strings", [["rule_table"], ["rule_strings"]], []),
    ("record_table, record_strings", [["record_table"], ["record_strings"]], []),
    ("sheet_table, sheet_strings", [["sheet_table"], ["sheet_strings"]], []),
    ("table, strings", [["table"], ["strings"]], []),
    ("rule_strings, record_strings, without rule_table", [["rule_strings"], ["record_strings"]], ["rule_table"]),
    ("record_table, cells", [["record_table"], ["cells"]], []),
    ("cells, limit", [["cells"], ["limit"]], []),
    ("text, at", [["text"], ["at"]], []),
    ("strings, used", [["strings"], ["used"]], []),
    ("strings, start, len", [["strings"], ["start"], ["len"]], []),
    ("first, row", [["first"], ["row"]], []),
    ("row, depth", [["row"], ["depth"]], []),
    ("row, a Label", [["row"], ["Label"]], []),
    ("at, negative", [["at"], ["negative"]], []),
    ("a table, row", [TABLES, ["row"]], []),
    ("a table, a Rows", [TABLES, ["Rows"]], []),
    ("record_table, a Parts", [["record_table"], ["Parts"]], []),
    ("table, place", [["table"], ["place"]], []),
    ("rows, place", [["rows"], ["place"]], []),
    ("place, end", [["place"], ["end"]], []),
    ("output or out, at", [["output", "out"], ["at"]], []),
    ("cells, cell", [["cells"], ["cell"]], []),
    ("cells, bottom", [["cells"], ["bottom"]], []),
    ("cells, count", [["cells"], ["count"]], []),
    ("kind, name", [["kind"], ["name"]], []),
    ("amount, unit", [["amount"], ["unit"]], []),
    ("a Domain, a Comparison", [["Domain"], ["Comparison"]], []),
    ("which, place", [["which"], ["place"]], []),
    ("year, month", [["year"], ["month"]], []),
    ("context, a State", [["context"], ["State"]], []),
    ("a Task, a Pending", [["Task"], ["Pending"]], []),
    ("rule or rule_text, record or record_text", [["rule", "rule_text"], ["record", "record_text"]], []),
    ("start, size", [["start"], ["size"]], []),
]


def takes(f, names):
    """Whether a function has a parameter of one of these names or types."""
    return any(n in names or ty in names for n, ty in f.params)


def point_5(t):
    facts = collections.OrderedDict()
    for f in t.fns:
        for clause in f.requires:
            for fact in conjuncts(clause):
                facts.setdefault(fact_key(t, f, fact), []).append(f)
    named, texts = [], []
    count = {"named": 0, "texts": 0}
    for (key, types), fs in sorted(facts.items(), key=lambda kv: -len(set(kv[1]))):
        distinct = list(dict.fromkeys(fs))
        if len(distinct) < 3:
            continue
        which = named if re.match(r"[A-Z]\w* \(of", key) else texts
        count["named" if which is named else "texts"] += 1
        which += [f.place(f"{key}: {len(distinct)} functions") for f in distinct]
    together, groups = [], 0
    for title, members, without in GROUPS:
        fs = [f for f in t.fns if all(takes(f, m) for m in members) and not takes(f, without)]
        if len(fs) < 3:
            continue
        groups += 1
        alone = ", ".join(f"{' or '.join(m) if len(m) < 4 else 'a table'} in {sum(takes(f, m) for f in t.fns)}" for m in members)
        together += [f.place(f"{title}: {len(fs)} functions (of all functions, {alone})") for f in fs]
    return [
        Part("5a", f"Facts of a `requires`, by definition, in three or more functions: {count['named']} facts", BY_RULE, named, True),
        Part("5b", f"Facts of a `requires` that name no definition, by text and types, in three or more functions: {count['texts']} facts", BY_RULE, texts, True),
        Part("5c", f"Parameters that travel together, in three or more functions: {groups} groups", "groups by name, functions by rule", together, True),
    ]


# ---- 6. buffers, parallel arrays, sorted lists, arenas

FILLING = """
table/string.rt: part_of (area, start, size)
name_index/lib.rt: common (strings, a, m, b, n), critical (strings, a, m, b, n)
json_reader/lib.rt: read_text (table, strings; rows, used), read_rows (table; rows), read_indexed (table; rows), read (table; rows)
writer/lib.rt: write (output; its length)
eval/lib.rt: evaluate (output; its length)
jehvrukam/evaluate.rt: judge (output; its length)
jehvrukam/evaluate_checked.rt: run_checked (output; its length), judge (output; its length)
jehvrukam/lib.rt: jehvrukam_evaluate (output; its length), jehvrukam_evaluate_checked (output; its length)
jehvrukam_c/lib.rt: jehvrukam_evaluate (output; its length), jehvrukam_evaluate_checked (output; its length)
admit/main.rt: evaluate_in (output; its length), evaluate (output; its length), put_result (out; its length), report (out; its length), read_full (buffer; its length), read_file (buffer; its length)
test_vectors/main.rt: evaluate_in (output; its length), evaluate (output; its length), is_text (output, size), read_full (buffer; its length), read_file (buffer; its length)
test_dates/main.rt: read_full (buffer; its length)
test_writer/lib.rt: writer_write (output; its length)
"""

LENGTHS = """
chars/lib.rt: Decoded (used)
json_reader/lib.rt: Answer (rows), TextStep (rows, used)
json_reader/step.rt: Cursor (row, used)
print/decimal.rt: Digits (bytes, start)
print/string.rt: Move (at)
writer/lib.rt: Answer (the length of output)
writer/value.rt: Progress (at)
operations/ended.rt: State (top, bottom)
eval/lib.rt: Answer (size)
jehvrukam/evaluate.rt: Outcome (size)
jehvrukam/evaluate_checked.rt: CheckedOutcome (size)
admit/main.rt: Outcome (size)
test_vectors/main.rt: Outcome (size)
"""

PARALLEL = """
syntax/lib.rt: TABLE_BYTES (rows, entries)
octets/names.rt: position_of (names, sizes)
name_index/lib.rt: entry_at (an entry for each row)
keywords/lib.rt: unit_named (names, sizes)
rule/mark.rt: MARKS (a mark for each row), rows_of (rows before marks), put_mark (a mark for each row), mark_at (a mark for each row)
text_types/lib.rt: type_named (names, sizes)
"""

INDEX_TYPES = """
table/node.rt: Rows (first, count)
table/row.rt: Span (start, size), Row (name, first, second)
name_index/find.rt: Found (a row)
name_index/lib.rt: Ended (at, link)
json_reader/row.rt: Label (start, size)
json_reader/step.rt: Cursor (row, used)
viewer/part.rt: PartAnswer (a place)
viewer/view.rt: Viewer (place)
heap/handle.rt: Span (start, size), Parts (first, count)
op_uvci/lib.rt: Fragment (start, size)
operations/ended.rt: State (top, bottom)
eval/task.rt: Task (row), Frame (lambda)
"""

# Functions of the crates that own an area, that follow or set an index and do not stand in 6g.
LINKING = """
table/node.rt: name_at, tail
table/string.rt: bytes_of
name_index/find.rt: find
name_index/items.rt: double_at, put_double, link, has_index, link_row, link_rows, link_items, item_row
name_index/lib.rt: enter, enter_slot, slot, descend, node_of, link_at, rank_of, fork, put_node
paths/items.rt: item_among, are_flat, item
paths/lib.rt: member
paths/members.rt: row_among, row_named
paths/owner.rt: owner
viewer/part.rt: end_of, next, skip, part_from, find_part
viewer/row.rt: find_row
viewer/view.rt: row, part, row_at, part_at
heap/handle.rt: load
heap/part.rt: head, next, tail, name_of
heap/string.rt: bytes
op_lookup/lib.rt: member, item_named
operations/lib.rt: operand, first, copy, list
"""

# What the number of a row, entry, cell or mark is turned into bytes by.
OFFSET = re.compile(r"\b(?:ROW_BYTES|ENTRY_BYTES|CELL_BYTES|MARKS)\b|\b(?:slot|other) \* 16\b")


def point_6(t):
    pairs = [("strings", "used"), ("output", "at"), ("out", "at"), ("table", "rows"), ("cells", "bottom"), ("cells", "count")]
    buffers = []
    for f in t.fns:
        found = [f"{a}, {b}" for a, b in pairs if a in f.names and b in f.names]
        if all(n in f.names for n in ("strings", "start", "len")):
            found.append("strings, start, len")
        if found:
            buffers.append(f.place("; ".join(found)))
    offsets = [f.place(", ".join(sorted({m.group(0) for m in OFFSET.finditer(f.code)}))) for f in t.fns if OFFSET.search(f.code)]
    there = {(p.path, p.name) for p in offsets}
    linking = [p for p in t.named(LINKING) if (p.path, p.name) not in there]
    return [
        Part("6a", "Functions that take a buffer and a number that says how much of it is used", BY_RULE, buffers, True),
        Part("6b", "Functions that take or fill a buffer and take or give its length apart", BY_NAME, t.named(FILLING), True),
        Part("6c", "Types that hold the used length of a buffer which lies elsewhere", BY_NAME, t.named(LENGTHS), True),
        Part("6d", "Parallel arrays", BY_NAME, t.named(PARALLEL), True),
        Part("6e", "Sorted lists searched by hand", BY_NAME, [], True),
        Part("6f", "Arenas: types that hold an index into an area", BY_NAME, t.named(INDEX_TYPES), True),
        Part("6g", "Arenas: functions that turn a number of rows, entries, cells or marks into bytes, or back", BY_RULE, offsets, True),
        Part("6h", "Arenas: functions that follow or set an index, in the crates that own the areas", BY_NAME, linking, True),
    ]


# ---- 7. switches, tables of functions

# Made by one function for the `match` of another that picks what runs.
STEP_ENUMS = """
syntax/lib.rt: Start (value), Separator (follow), Lead (piece), Escape (escape), Unit (unit and low_half)
json_reader/list.rt: After (all_items and all_members)
op_lookup/lib.rt: Place (value_at)
eval/task.rt: Frame (take), Next (operands and eval)
test_dates/main.rt: Kind (agrees and Tally::counted)
"""

LADDERS = """
viewer/row.rt: has_content (is_integer, is_within, is_span)
dates/lib.rt: read_day (midnight, month_end)
dates/offset.rt: to_utc (ahead, behind)
"""

# Matches that call three functions or more, and make a value: they pick no step.
MAKES_A_VALUE = {("heap", "pack"), ("writer", "put_label"), ("type_check", "literal_types"), ("test_dates", "is_expected")}


def arms(code, start, end):
    """The arms of a match: the code behind each `=>`."""
    i = start
    while True:
        i = re.compile(r"[\s,]*").match(code, i).end()
        if i >= end:
            return
        deep = 0
        while code[i:i + 2] != "=>" or deep:
            deep += (code[i] in "([{") - (code[i] in ")]}")
            i += 1
        i = re.compile(r"=>\s*").match(code, i).end()
        j = i
        if code[i] == "{":
            j = closing(code, i) + 1
        else:
            deep = 0
            while j < end and (code[j] != "," or deep):
                deep += (code[j] in "([{") - (code[j] in ")]}")
                j += 1
        yield code[i:j]
        i = j


def point_7(t):
    known = {f.name for f in t.fns}
    matches = []
    for f in t.fns:
        for m in re.finditer(r"\bmatch\b", f.code):
            i, deep = m.end(), 0
            while f.code[i] != "{" or deep:
                deep += (f.code[i] in "([") - (f.code[i] in ")]")
                i += 1
            calls = [[c for c in re.findall(r"(?<![.\w])([a-z_]\w*)\(", a) if c in known] for a in arms(f.code, i + 1, closing(f.code, i))]
            arms_that_call, calls = sum(bool(c) for c in calls), list(dict.fromkeys(sum(calls, [])))
            if arms_that_call >= 3 and len(calls) >= 3 and (f.crate, f.name) not in MAKES_A_VALUE:
                matches.append(Place(f.crate, f.path, f.first_line + f.code.count("\n", 0, m.start()), f.name, ", ".join(calls)))
    tables = [Place(c, p, n, l.strip(), "") for c, p, n, l in t.lines if re.search(r"\bfn\(|\bdyn ", l)]
    return [
        Part("7a", "Enums made for one `match` that picks what runs, with the functions of that match", BY_NAME, t.named(STEP_ENUMS), True),
        Part("7b", "Matches of which three arms or more call, and call three functions or more", BY_RULE, matches, True),
        Part("7c", "Ladders of `if` that pick a function by a number or a shape", BY_NAME, t.named(LADDERS), True),
        Part("7d", "Tables of functions, function pointers and `dyn`", BY_RULE, tables, True),
    ]


# ---- 8. proofs

def point_8(t):
    rows = []
    for crate in t.crates:
        files = t.files(crate, "proofs", ".antt")
        texts = [open(f"{t.root}/{p}").read() for p in files]
        goals = sum(len(re.findall(r"^pub .* : goal\.", x, re.M)) for p, x in zip(files, texts) if p.endswith("/Answers.antt"))
        answers = sum(p.endswith("/Answers.antt") for p in files)
        invariants = sum(p.endswith("/Invariants.antt") for p in files)
        rows.append((crate, len(files), sum(x.count("\n") for x in texts), answers, invariants, goals))
    return rows


# ---- the program

TITLES = {
    "1": "Option, Result and enums in place of own shapes and numbers",
    "2": "Twins",
    "3": "Loops that count an index by hand",
    "4": "Equality, order, copying, conversion and printing by hand",
    "5": "Facts in three or more contracts, and parameters that travel together",
    "6": "Buffers with a length, parallel arrays, sorted lists, arenas of indices",
    "7": "Switches on which step to run, tables of functions",
    "8": "Proofs",
}
POINTS = {"1": point_1, "2": point_2, "3": point_3, "4": point_4, "5": point_5, "6": point_6, "7": point_7}
GROUPED = ("2a", "2b", "2c", "2d", "5a", "5b", "5c")


def short(p):
    return p.path.split("/src/", 1)[1]


def show(t, point, marks=None):
    if point == "8":
        rows = point_8(t)
        print("| Crate | Files | Lines | Answers.antt | Invariants.antt | Goals answered |\n|---|---|---|---|---|---|")
        for r in rows:
            print("| " + " | ".join(str(x) for x in r) + " |")
        print("| all | " + " | ".join(str(sum(r[i] for r in rows)) for i in range(1, 6)) + " |")
        return
    parts = POINTS[point](t)
    total = sum(len(p.places) for p in parts if p.counted)
    print(f"**{total} places**")
    for part in parts:
        print(f"\n### {part.key}. {part.title}\n\n{len(part.places)} places, {part.how}{'' if part.counted else ', not in the total'}.\n")
        mark = lambda p: f" **{marks(part.key, p)}**" if marks else ""
        by = collections.OrderedDict()
        if part.key in GROUPED:
            for p in part.places:
                by.setdefault(p.note, []).append(p)
            for n, (title, ps) in enumerate(by.items(), 1):
                print(f"- {part.key}.{n}. {title}: " + ", ".join(f"{p.crate}/{short(p)}:{p.line} {p.name}{mark(p)}" for p in t.sorted(ps)))
            continue
        for p in t.sorted(part.places):
            by.setdefault(p.crate, []).append(p)
        for crate, ps in by.items():
            print(f"- **{crate}** ({len(ps)}): " + ", ".join(f"{short(p)}:{p.line} {p.name}" + (f" `{p.note}`" if p.note else "") + mark(p) for p in ps))


def at_commit(commit):
    """The tree of a commit, in a folder of its own."""
    folder = tempfile.TemporaryDirectory(prefix="design_places")
    archive = subprocess.run(["git", "archive", commit, "crates", "crates.txt"], check=True, stdout=subprocess.PIPE).stdout
    subprocess.run(["tar", "-x", "-C", folder.name], input=archive, check=True)
    tree = Tree(folder.name)
    tree.folder = folder  # it stays as long as the tree
    return tree


def main(words):
    commit = since = None
    points = []
    while words:
        w = words.pop(0)
        if w == "--at":
            commit = words.pop(0)
        elif w == "--since":
            since = words.pop(0)
        elif w in TITLES:
            points.append(w)
        else:
            sys.exit(__doc__)
    t = at_commit(commit or since) if commit or since else Tree(".")
    if not points:
        print("| Point | Places |\n|---|---|")
        for point in POINTS:
            print(f"| {point}. {TITLES[point]} | {sum(len(p.places) for p in POINTS[point](t) if p.counted)} |")
        rows = point_8(t)
        print(f"| 8. Proofs | {sum(r[1] for r in rows)} files, {sum(r[2] for r in rows)} lines, {sum(r[5] for r in rows)} goals |")
        return
    for point in points:
        print(f"## {point}. {TITLES[point]}\n")
        if not since or point not in POINTS:
            show(t, point)
            print()
            continue
        now = collections.Counter((part.key, p.crate, p.name) for part in POINTS[point](Tree(".")) for p in part.places)

        def marks(key, p):
            now[key, p.crate, p.name] -= 1
            return "stands" if now[key, p.crate, p.name] >= 0 else "gone"
        show(t, point, marks)
        new = [f"{key} {crate} {name}" for (key, crate, name), n in now.items() for _ in range(n)]
        print(f"\n### New places: {len(new)}\n\n" + "".join(f"- {x}\n" for x in new))


if __name__ == "__main__":
    signal.signal(signal.SIGPIPE, signal.SIG_DFL)
    main(sys.argv[1:])
