#!/usr/bin/env python3
"""An independent implementation of document 01, for texts that are already read.

It was written from document 01 and shares nothing with the definitions of crates/model, so that an agreement of the
two means something. Two things it does not tell: where document 01 leaves a point open, both follow
docs/DECISIONS.md; and both are given what one reader, try_definitions.Reader, made of a text. Sentences in quotes
are document 01's.

A value is None, a bool, an int, bytes, a list or Members, as try_definitions.Reader decodes a text; evaluation can
also give an Instant. A rule and a sheet are such values too. The functions at the end are for callers.
"""
import operator
import re
import sys
from dataclasses import dataclass
from pathlib import Path

sys.path.insert(0, str(Path(__file__).resolve().parents[1] / "definitions"))
from try_definitions import Members

LARGEST_INTEGER = 9007199254740991
MOST_STEPS = 1000
MOST_VALUES = 1024
DEEPEST = 32
LONGEST_TEXT = 16384
MOST_PATHS = 256  # members of a sheet

# What comes back: 0 is done, any other number a refusal.
DONE = 0
LIMIT_TOO_HIGH = 1
NOT_A_RULE = 6
WRONG_KIND = 7
BAD_DATE = 8
OUT_OF_RANGE = 9
OUT_OF_STEPS = 10
ANSWER_TOO_LARGE = 11
OUTPUT_TOO_SHORT = 12
NOT_ACCEPTED = 13
NOT_A_SHEET = 14


class Refused(Exception):
    """Ends a judgement with the number of a refusal."""

    def __init__(self, number):
        super().__init__(number)
        self.number = number


# ---- values

@dataclass(frozen=True, order=True)
class Instant:
    """A point in time: milliseconds from 1970-01-01 in UTC."""
    milliseconds: int


SCALARS = ("null", "boolean", "integer", "string")


def kind(value):
    if value is None:
        return "null"
    if isinstance(value, bool):  # before int, of which Python's bool is a subclass
        return "boolean"
    if isinstance(value, int):
        return "integer"
    if isinstance(value, bytes):
        return "string"
    if isinstance(value, Instant):
        return "instant"
    if isinstance(value, Members):  # before list, as above
        return "object"
    return "array"


def need(condition, refusal=WRONG_KIND):
    if not condition:
        raise Refused(refusal)


def is_scalar(value):
    return kind(value) in SCALARS


def same_scalar(one, other):
    """Whether two scalars are equal in kind and content. In Python True == 1."""
    return kind(one) == kind(other) and one == other


def is_truthy(value):
    """True or False; an instant is neither, so None."""
    if isinstance(value, Instant):
        return None
    return bool(value)  # Python's false values are the falsy ones: False, None, b"", 0, [] and Members()


# ---- shape

UNITS = (b"year", b"month", b"day", b"hour")
MANY = LONGEST_TEXT  # no text holds as many operands

# The fewest and the most operands, of operations all of whose operands are rules.
OPERAND_COUNTS = {
    **dict.fromkeys([b"if", b"reduce"], (3, 3)),
    **dict.fromkeys([b"===", b"in", b"+"], (2, 2)),
    b"and": (2, MANY),
    **dict.fromkeys([b">", b"<", b">=", b"<=", b"after", b"before", b"not-after", b"not-before"], (2, 3)),
    **dict.fromkeys([b"!", b"dccDateOfBirth"], (1, 1)),
}


def is_path(name):
    """Empty, or non-empty fragments parted by dots."""
    return name == b"" or all(name.split(b"."))


def is_rule(value):
    if isinstance(value, Members):
        return len(value) == 1 and is_operation(*value[0])
    if isinstance(value, list):
        return all(is_rule(item) for item in value)
    return value is not None


def is_operation(name, operands):
    if name == b"var":
        return kind(operands) == "string" and is_path(operands)
    if kind(operands) != "array":
        return False
    if name == b"plusTime":
        return len(operands) == 3 and is_rule(operands[0]) and kind(operands[1]) == "integer" and operands[2] in UNITS
    if name == b"extractFromUVCI":
        return len(operands) == 2 and is_rule(operands[0]) and kind(operands[1]) == "integer"
    if name not in OPERAND_COUNTS:
        return False
    fewest, most = OPERAND_COUNTS[name]
    return fewest <= len(operands) <= most and is_rule(operands)


# ---- calendar: a day is counted from 1970-01-01, in the Gregorian calendar without a beginning

EARLIEST, LATEST = -62167219200000, 253402300799999
SECOND = 1000
MINUTE = 60 * SECOND
HOUR = 60 * MINUTE
DAY = 24 * HOUR


def is_leap(year):
    return year % 4 == 0 and (year % 100 != 0 or year % 400 == 0)


def days_in_month(year, month):
    if month == 2:
        return 29 if is_leap(year) else 28
    return 30 if month in (4, 6, 9, 11) else 31


def days_since_0000(year):
    """Days from 0000-01-01, which is in a leap year, to the year's 1 January; negative before it."""
    leap_years = (year + 3) // 4 - (year + 99) // 100 + (year + 399) // 400
    return 365 * year + leap_years


def day_number(year, month, day):
    before = sum(days_in_month(year, earlier) for earlier in range(1, month))
    return days_since_0000(year) - days_since_0000(1970) + before + day - 1


def year_month_day(number):
    """The inverse of day_number."""
    left = number + days_since_0000(1970)
    year = left * 400 // 146097  # a guess: 400 years have 146,097 days
    while days_since_0000(year + 1) <= left:
        year += 1
    while days_since_0000(year) > left:
        year -= 1
    left -= days_since_0000(year)
    month = 1
    while left >= days_in_month(year, month):
        left -= days_in_month(year, month)
        month += 1
    return year, month, left + 1


def instant(milliseconds):
    need(EARLIEST <= milliseconds <= LATEST, OUT_OF_RANGE)
    return Instant(milliseconds)


def shifted(start, amount, unit):
    """An instant, shifted: "Year and month shifts keep the day number, and days past the month's end run on".

    Python's integers have no limit, so that very large amounts need no care.
    """
    if unit == b"hour":
        return instant(start.milliseconds + amount * HOUR)
    if unit == b"day":
        return instant(start.milliseconds + amount * DAY)
    number, time = divmod(start.milliseconds, DAY)
    year, month, day = year_month_day(number)
    months = 12 * year + month - 1 + (12 * amount if unit == b"year" else amount)
    return instant((day_number(months // 12, months % 12 + 1, 1) + day - 1) * DAY + time)


# ---- date texts

# The first three of the nineteen forms.
DAY_FORM = re.compile(rb"([0-9]{4})(?:-([0-9]{2})(?:-([0-9]{2}))?)?")
# The others: an optional fraction, then nothing, Z, or an offset h, hh, hmm, hhmm, h:mm or hh:mm.
TIME_FORM = re.compile(
    rb"(?P<day>[0-9]{4}-[0-9]{2}-[0-9]{2})T([0-9]{2}):([0-9]{2}):([0-9]{2})(?:\.(?P<fraction>[0-9]{1,9}))?"
    rb"(?:Z|(?P<sign>[+-])(?P<hours>[0-9]{1,2})(?::?(?P<minutes>[0-9]{2}))?)?"
)


def day_instant(text):
    """The instant of a text in one of the first three forms."""
    found = DAY_FORM.fullmatch(text)
    need(found, BAD_DATE)
    year = int(found[1])
    month = int(found[2] or 12)
    need(1 <= month <= 12, BAD_DATE)
    last = days_in_month(year, month)
    day = int(found[3] or last)
    need(1 <= day <= last, BAD_DATE)
    return instant(day_number(year, month, day) * DAY)


def date_instant(text):
    """The instant of a text in one of the nineteen forms."""
    found = TIME_FORM.fullmatch(text)
    if not found:
        return day_instant(text)
    midnight = day_instant(found["day"]).milliseconds
    hour, minute, second = int(found[2]), int(found[3]), int(found[4])
    need(hour <= 23 and minute <= 59 and second <= 59, BAD_DATE)
    # "A fraction has one to nine digits; those after the third are dropped."
    thousandths = int((found["fraction"] or b"").ljust(3, b"0")[:3])
    # A clock that is ahead of UTC, +01:00 say, shows a time that UTC had before.
    hours, minutes = int(found["hours"] or 0), int(found["minutes"] or 0)
    need(hours <= 23 and minutes <= 59, BAD_DATE)
    ahead = (hours * HOUR + minutes * MINUTE) * (-1 if found["sign"] == b"-" else 1)
    return instant(midnight + hour * HOUR + minute * MINUTE + second * SECOND + thousandths - ahead)


def instant_text(at):
    number, time = divmod(at.milliseconds, DAY)
    fields = (*year_month_day(number), time // HOUR, time // MINUTE % 60, time // SECOND % 60, time % SECOND)
    return b"%04d-%02d-%02dT%02d:%02d:%02d.%03dZ" % fields


# ---- the operations that evaluate all their operands: functions of the values, then of the bare operands

def equal(one, other):
    need(is_scalar(one) and is_scalar(other))
    return same_scalar(one, other)


def contained(sought, items):
    need(is_scalar(sought) and kind(items) == "array")
    return any(is_scalar(item) and same_scalar(sought, item) for item in items)


def total(one, other):
    need(kind(one) == kind(other) == "integer")
    need(abs(one + other) <= LARGEST_INTEGER, OUT_OF_RANGE)
    return one + other


def negation(value):
    truthy = is_truthy(value)
    need(truthy is not None)
    return not truthy


def plus_time(text, amount, unit):
    need(kind(text) == "string")
    return shifted(date_instant(text), amount, unit)


def date_of_birth(text):
    need(kind(text) == "string")
    return day_instant(text)


def extract(text, index):
    if text is None:
        return None
    need(kind(text) == "string")
    fragments = re.split(rb"[/#:]", text)
    if fragments[:2] == [b"URN", b"UVCI"]:
        fragments = fragments[2:]
    return fragments[index] if 0 <= index < len(fragments) else None


FUNCTIONS = {
    b"===": equal,
    b"in": contained,
    b"+": total,
    b"!": negation,
    b"plusTime": plus_time,
    b"dccDateOfBirth": date_of_birth,
    b"extractFromUVCI": extract,
}

# The kind that the operands need, and what holds of neighbours.
COMPARISONS = {
    b">": ("integer", operator.gt),
    b"<": ("integer", operator.lt),
    b">=": ("integer", operator.ge),
    b"<=": ("integer", operator.le),
    b"after": ("instant", operator.gt),
    b"before": ("instant", operator.lt),
    b"not-after": ("instant", operator.le),
    b"not-before": ("instant", operator.ge),
}


def compare(name, values):
    needed, holds = COMPARISONS[name]
    need(all(kind(value) == needed for value in values))
    return all(holds(one, next_one) for one, next_one in zip(values, values[1:]))


def split_operands(name, operands):
    """The operands that are rules, and the bare ones after them."""
    rules = 1 if name in (b"plusTime", b"extractFromUVCI") else len(operands)
    return operands[:rules], operands[rules:]


# ---- evaluation

def look_up(path, context):
    """The value at a path, null where there is none."""
    value = context
    for fragment in path.split(b".") if path else []:
        if kind(value) == "object":
            value = next((content for name, content in value if name == fragment), None)
        elif kind(value) == "array":
            value = item_at(value, fragment)
        else:
            return None
    return value


def item_at(items, fragment):
    """The item whose index a fragment is: "0 or digits without a leading zero"."""
    if not re.fullmatch(rb"0|[1-9][0-9]*", fragment) or len(fragment) > len(str(len(items))):
        return None  # no index, or one with more digits than the length has
    return items[int(fragment)] if int(fragment) < len(items) else None


class Evaluation:
    """A run under a step limit. Its trace has the places of the rules that it begins, in order.

    A place is the tuple of the operand positions, from 0, that lead to a rule from the root.
    """

    def __init__(self, limit):
        self.limit = limit
        self.trace = []

    def begin(self, rule, place, context):
        """The value of a rule. Beginning to evaluate it is one step."""
        if len(self.trace) == self.limit:
            raise Refused(OUT_OF_STEPS)
        self.trace.append(place)
        if isinstance(rule, Members):
            name, operands = rule[0]
            return self.operation(name, operands, place, context)
        if isinstance(rule, list):
            return self.each(rule, place, context)
        return rule

    def each(self, rules, place, context):
        return [self.begin(rule, (*place, position), context) for position, rule in enumerate(rules)]

    def operation(self, name, operands, place, context):
        if name == b"var":
            return look_up(operands, context)
        if name == b"if":
            return self.choose(operands, place, context)
        if name == b"and":
            return self.conjunction(operands, place, context)
        if name == b"reduce":
            return self.fold(operands, place, context)
        rules, bare = split_operands(name, operands)
        values = self.each(rules, place, context)
        if name in COMPARISONS:
            return compare(name, values)
        return FUNCTIONS[name](*values, *bare)

    def choose(self, operands, place, context):
        guard = self.begin(operands[0], (*place, 0), context)
        chosen = 1 if is_truthy(guard) else 2  # an instant is not truthy
        return self.begin(operands[chosen], (*place, chosen), context)

    def conjunction(self, operands, place, context):
        value = None
        for position, operand in enumerate(operands):
            value = self.begin(operand, (*place, position), context)
            truthy = is_truthy(value)
            need(truthy is not None)
            if not truthy:
                break
        return value

    def fold(self, operands, place, context):
        items = self.begin(operands[0], (*place, 0), context)
        accumulator = self.begin(operands[2], (*place, 2), context)
        need(kind(items) == "array")
        for item in items:
            inner = Members([(b"current", item), (b"accumulator", accumulator)])
            accumulator = self.begin(operands[1], (*place, 1), inner)
        return accumulator


# ---- writing

ESCAPES = {0x08: b"\\b", 0x09: b"\\t", 0x0A: b"\\n", 0x0C: b"\\f", 0x0D: b"\\r", 0x22: b'\\"', 0x5C: b"\\\\"}


def escaped(byte):
    if byte in ESCAPES:
        return ESCAPES[byte]
    return b"\\u%04x" % byte if byte < 0x20 else bytes([byte])


def quoted(text):
    return b'"' + b"".join(map(escaped, text)) + b'"'


class Writer:
    """Writes a value and counts its values and its nesting; stops with 11 at the first limit that is passed.

    An answer's parts can be one Python list many times over, so that its text is of exponential size.
    """

    def __init__(self):
        self.parts = []
        self.length = 0
        self.values = 0
        self.nesting = 0

    def put(self, part):
        self.length += len(part)
        need(self.length <= LONGEST_TEXT, ANSWER_TOO_LARGE)
        self.parts.append(part)

    def write(self, value, depth=0):
        self.values += 1
        need(self.values <= MOST_VALUES, ANSWER_TOO_LARGE)
        if isinstance(value, list):
            self.write_parts(value, depth + 1)
        elif kind(value) == "string":
            self.put(quoted(value))
        elif kind(value) == "instant":
            self.put(quoted(instant_text(value)))
        elif kind(value) == "integer":
            self.put(b"%d" % value)
        else:
            self.put({None: b"null", True: b"true", False: b"false"}[value])

    def write_parts(self, value, depth):
        """The items of an array or the members of an object, which are at this depth."""
        need(depth <= DEEPEST, ANSWER_TOO_LARGE)
        self.nesting = max(self.nesting, depth)
        is_object = isinstance(value, Members)
        self.put(b"{" if is_object else b"[")
        for position, part in enumerate(value):
            if position:
                self.put(b",")
            if is_object:
                self.put(quoted(part[0]) + b":")
            self.write(part[1] if is_object else part, depth)
        self.put(b"}" if is_object else b"]")


# ---- sheets

# The words in the order in which document 01 lists them; a sheet has all but the last.
WORDS = ("null", "boolean", "integer", "string", "date", "day", "integers", "strings", "array", "object", "instant")
SHEET_WORDS = [word.encode() for word in WORDS[:-1]]


def is_word_list(value):
    if kind(value) != "array" or not value:
        return False
    return all(word in SHEET_WORDS and value.count(word) == 1 for word in value)


def sheet_of(value):
    """A sheet as a dict of paths, each with its set of words."""
    need(kind(value) == "object" and len(value) <= MOST_PATHS, NOT_A_SHEET)
    for path, words in value:
        need(path != b"" and is_path(path) and is_word_list(words), NOT_A_SHEET)
    return {path: {word.decode() for word in words} for path, words in value}


def has_instant(reading, text):
    """Whether a way of reading date texts gives an instant for this one."""
    try:
        reading(text)
    except Refused:
        return False
    return True


def belongs(value, word):
    if word in ("date", "day"):
        return kind(value) == "string" and has_instant(day_instant if word == "day" else date_instant, value)
    if word in ("integers", "strings"):
        return kind(value) == "array" and all(kind(item) == word[:-1] for item in value)
    return kind(value) == word


# ---- kind check

WIDER = {"day": {"date", "string"}, "date": {"string"}, "integers": {"array"}, "strings": {"array"}}
SIX = {"null", "boolean", "integer", "string", "array", "object"}
SEVEN = SIX | {"instant"}
ITEMS = {"integers": {"integer"}, "strings": {"string"}, "array": SEVEN}

# The words that each operand may have, and those of the result.
SIGNATURES = {
    b"!": (SIX, {"boolean"}),
    b"+": ({"integer"}, {"integer"}),
    b"===": (set(SCALARS), {"boolean"}),
    b"plusTime": ({"date"}, {"instant"}),
    b"dccDateOfBirth": ({"day"}, {"instant"}),
    b"extractFromUVCI": ({"null", "string"}, {"null", "string"}),
    **{name: ({needed}, {"boolean"}) for name, (needed, _) in COMPARISONS.items()},
}


def passes(words, allowed):
    """Whether every word passes: "where it or a wider one is allowed"."""
    return all(word in allowed or WIDER.get(word, set()) & allowed for word in words)


def need_words(words, allowed):
    need(passes(words, allowed), NOT_ACCEPTED)


def outside_lambda(sheet):
    """The words of a path outside a lambda."""
    return lambda path: sheet.get(path, SIX)


def inside_lambda(current, accumulator):
    """The words of a path inside a lambda."""
    known = {b"": {"object"}, b"current": current, b"accumulator": accumulator}

    def words_at(path):
        longer = path.split(b".")[0] in (b"current", b"accumulator")
        return known.get(path, SEVEN if longer else {"null"})

    return words_at


def words_of(rule, words_at):
    """The set of a rule's words, from the words of the paths."""
    if isinstance(rule, Members):
        return words_of_operation(*rule[0], words_at)
    if isinstance(rule, list):
        return words_of_array([words_of(item, words_at) for item in rule])
    if kind(rule) == "string":
        return {next(word for word in ("day", "date", "string") if belongs(rule, word))}
    return {kind(rule)}


def words_of_array(items):
    if all(words == {"integer"} for words in items):
        return {"integers"}
    if all(passes(words, {"string"}) for words in items):
        return {"strings"}
    return {"array"}


def words_of_operation(name, operands, words_at):
    if name == b"var":
        return words_at(operands)
    if name == b"reduce":
        return words_of_reduce(operands, words_at)
    found = [words_of(operand, words_at) for operand in split_operands(name, operands)[0]]
    if name == b"if":
        return found[1] | found[2]
    if name == b"and":
        need_words(set().union(*found), SIX)
        return set().union(*found)
    if name == b"in":
        need_words(found[0], set(SCALARS))
        need_words(found[1], {"array"})
        return {"boolean"}
    allowed, given = SIGNATURES[name]
    need_words(set().union(*found), allowed)
    return given


def words_of_reduce(operands, words_at):
    array, initial = words_of(operands[0], words_at), words_of(operands[2], words_at)
    need_words(array, {"array"})
    items = set().union(*[ITEMS[word] for word in array])
    need_words(words_of(operands[1], inside_lambda(items, initial)), initial)
    return initial


# ---- for callers

def measure(value):
    """The number of values, the nesting and the text of a value that is within the limits; else Refused."""
    writer = Writer()
    writer.write(value)
    return writer.values, writer.nesting, b"".join(writer.parts)


def evaluate(rule, record, limit, room):
    """The refusal, the steps and the text of the answer, for an output area of so many bytes."""
    refusal, places, text = evaluate_traced(rule, record, limit, room)
    return refusal, len(places), text


def evaluate_traced(rule, record, limit, room):
    """The same, with the places of the rules begun for their number."""
    run = Evaluation(limit)
    try:
        need(limit <= MOST_STEPS, LIMIT_TOO_HIGH)
        need(is_rule(rule), NOT_A_RULE)
        text = measure(run.begin(rule, (), record))[2]
        need(len(text) <= room, OUTPUT_TOO_SHORT)
    except Refused as refused:
        return refused.number, run.trace, b""
    return DONE, run.trace, text


def check(rule, sheet):
    """The refusal, and the words found in document 01's order."""
    try:
        need(is_rule(rule), NOT_A_RULE)
        found = words_of(rule, outside_lambda(sheet_of(sheet)))
    except Refused as refused:
        return refused.number, []
    return DONE, [word for word in WORDS if word in found]


def fits(sheet, record):
    """The refusal, and whether the record fits."""
    try:
        paths = sheet_of(sheet)
    except Refused as refused:
        return refused.number, False
    return DONE, all(any(belongs(look_up(path, record), word) for word in words) for path, words in paths.items())


def evaluate_checked(rule, sheet, record, limit, room):
    """As evaluate, if the rule passes the kind check."""
    refusal = LIMIT_TOO_HIGH if limit > MOST_STEPS else check(rule, sheet)[0]
    if refusal:
        return refusal, 0, b""
    return evaluate(rule, record, limit, room)
