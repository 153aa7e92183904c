// Writes test vectors for dates to standard output. The answers come from JavaScript's own Date. See README.md.
import assert from "node:assert/strict";

// ---- lines

const lines = new Set(); // no line twice

// A text is a string of one character for each byte.
function line(...fields) {
  for (const field of fields) assert(!/[\t\n]/.test(field), "a field has a TAB or a newline");
  lines.add(fields.join("\t"));
}

const utf8 = (text) => Buffer.from(text, "utf8").toString("latin1");

// ---- the range, document 01: 0000-01-01T00:00:00.000Z to 9999-12-31T23:59:59.999Z

function utc(year, month, day, hour = 0, minute = 0, second = 0, ms = 0) {
  const date = new Date(0);
  date.setUTCFullYear(year, month - 1, day); // takes years below 100 as they are, other than Date.UTC
  date.setUTCHours(hour, minute, second, ms);
  return date;
}

const EARLIEST = utc(0, 1, 1).getTime();
const LATEST = utc(9999, 12, 31, 23, 59, 59, 999).getTime();
assert.equal(EARLIEST, -62167219200000);
assert.equal(LATEST, 253402300799999);

// NaN, which Date gives past its own range, is outside too.
const ranged = (ms) => (ms >= EARLIEST && ms <= LATEST ? String(ms) : "refused 9");

// ---- date texts: the forms of document 001, in its order

const TIME = "YYYY-MM-DDThh:mm:ss";
const OFFSETS = ["", "Z", "+H", "+HH", "+HMM", "+HHMM", "+H:MM", "+HH:MM"];
const FORMS = [
  "YYYY",
  "YYYY-MM",
  "YYYY-MM-DD",
  ...OFFSETS.map((offset) => TIME + offset),
  ...OFFSETS.map((offset) => TIME + ".S" + offset),
];
assert.equal(FORMS.length, 19);

// The offset's digits are H and M here, so that no part is named twice.
function pattern(form) {
  const offset = {
    "+H": "(?<sign>[+-])(?<oh>[0-9])",
    "+HH": "(?<sign>[+-])(?<oh>[0-9]{2})",
    "+HMM": "(?<sign>[+-])(?<oh>[0-9])(?<om>[0-9]{2})",
    "+HHMM": "(?<sign>[+-])(?<oh>[0-9]{2})(?<om>[0-9]{2})",
    "+H:MM": "(?<sign>[+-])(?<oh>[0-9]):(?<om>[0-9]{2})",
    "+HH:MM": "(?<sign>[+-])(?<oh>[0-9]{2}):(?<om>[0-9]{2})",
  };
  const shape = form
    .replace(".S", "\\.(?<fraction>[0-9]{1,9})")
    .replace(/\+[HM:]+$/, (end) => offset[end])
    .replace("YYYY", "(?<year>[0-9]{4})")
    .replace("-MM", "-(?<month>[0-9]{2})")
    .replace("-DD", "-(?<day>[0-9]{2})")
    .replace("Thh:mm:ss", "T(?<hour>[0-9]{2}):(?<minute>[0-9]{2}):(?<second>[0-9]{2})");
  return new RegExp(`^${shape}$`);
}

const PATTERNS = FORMS.map(pattern);

// YYYY is its 31 December; YYYY-MM its month's last day.
function lastDay(year, month) {
  const next = utc(year, month, 1);
  next.setUTCMonth(next.getUTCMonth() + 1);
  next.setUTCDate(0);
  return next.getUTCDate();
}

// Whether Date gives back the numbers that it was made from.
function kept(date, year, month, day, hour, minute, second) {
  return (
    date.getUTCFullYear() === year &&
    date.getUTCMonth() + 1 === month &&
    date.getUTCDate() === day &&
    date.getUTCHours() === hour &&
    date.getUTCMinutes() === minute &&
    date.getUTCSeconds() === second
  );
}

// The milliseconds of a text, or null where it is in none of the forms or its numbers are wrong.
function instant(text, patterns) {
  const found = patterns.map((p) => p.exec(text)).find((match) => match !== null);
  if (found === undefined) return null;
  const part = (name, absent) => (found.groups[name] === undefined ? absent : Number(found.groups[name]));
  const year = part("year");
  const month = part("month", 12);
  const day = part("day", lastDay(year, month));
  const [hour, minute, second] = [part("hour", 0), part("minute", 0), part("second", 0)];
  const fraction = Number(((found.groups.fraction ?? "") + "000").slice(0, 3));
  const date = utc(year, month, day, hour, minute, second, fraction);
  if (!kept(date, year, month, day, hour, minute, second)) return null;
  const [oh, om] = [part("oh", 0), part("om", 0)];
  if (!kept(utc(2000, 1, 1, oh, om), 2000, 1, 1, oh, om, 0)) return null;
  const sign = found.groups.sign === "-" ? -1 : 1;
  date.setUTCHours(date.getUTCHours() - sign * oh, date.getUTCMinutes() - sign * om);
  return date.getTime();
}

// The texts whose meaning ECMAScript itself defines.
const ECMASCRIPT = /^[0-9]{4}-[0-9]{2}-[0-9]{2}(T[0-9]{2}:[0-9]{2}:[0-9]{2}\.[0-9]{3}(Z|[+-][0-9]{2}:[0-9]{2}))?$/;
let parsed = 0;

function answer(text, patterns) {
  const ms = instant(text, patterns);
  if (ms === null) return "refused 8";
  if (ECMASCRIPT.test(text)) {
    assert.equal(Date.parse(text), ms, text);
    parsed += 1;
  }
  return ranged(ms);
}

const date = (text) => line("date", text, answer(text, PATTERNS));
const day = (text) => line("day", text, answer(text, PATTERNS.slice(0, 3)));

// ---- shifts and texts of instants

const UNITS = { year: "FullYear", month: "Month", day: "Date", hour: "Hours" };

// Document 001: dateTime.setUTC<postfix>(dateTime.getUTC<postfix>() + amount)
function shifted(ms, amount, unit) {
  if (ranged(ms) === "refused 9") return "refused 9";
  const moved = new Date(ms);
  moved[`setUTC${UNITS[unit]}`](moved[`getUTC${UNITS[unit]}`]() + amount);
  return ranged(moved.getTime());
}

const shift = (ms, amount, unit) => line("shift", String(ms), String(amount), unit, shifted(ms, amount, unit));

function text(ms) {
  const written = new Date(ms).toISOString();
  assert.equal(written.length, 24);
  line("text", String(ms), written);
}

// ---- numbers from a seed (xorshift, 32 bits)

let state = 20200302;

function random(below) {
  state ^= state << 13;
  state ^= state >>> 17;
  state ^= state << 5;
  return (state >>> 0) % below;
}

const between = (least, most) => least + random(most - least + 1);
const pick = (list) => list[random(list.length)];
const digits = (n, width) => String(n).padStart(width, "0");

function randomInstant() {
  const date = utc(random(10000), between(1, 12), between(1, 31), random(24), random(60), random(60), random(1000));
  return Math.min(date.getTime(), LATEST);
}

// ---- dates: every form

const LEAP_CHECKS = ["1900", "2000", "2020", "2100", "0000", "0004", "9996"];
const FRACTIONS = ["1", "12", "123", "1239", "12399", "123999", "1239999", "12399999", "123999999", "1239999999"];
const ENDS = ["", "Z", "+1", "-1", "+02", "-02", "+330", "-330", "+0330", "-0330", "+9:45", "-9:45", "+23:59", "-23:59"];

for (const end of ENDS) {
  date("2020-02-29T23:59:59" + end);
  for (const fraction of FRACTIONS) date("2020-02-29T23:59:59." + fraction + end);
  date("2020-02-29T23:59:59." + end);
}
for (const fraction of ["0", "00", "000", "9", "99", "999", "001", "010", "0009", "000000000", "999999999", "0000000000"]) {
  for (const end of ["", "Z", "+00:00"]) date("1969-12-31T23:59:59." + fraction + end);
}

// Years, months and days; every day number of two years.
for (const year of [...LEAP_CHECKS, "0001", "0099", "0100", "0400", "1582", "1969", "1970", "9999"]) {
  for (const take of [date, day]) {
    take(year);
    for (let month = 0; month <= 13; month += 1) take(`${year}-${digits(month, 2)}`);
    for (const end of ["02-28", "02-29", "02-30", "01-01", "12-31", "03-00", "00-10", "13-01", "04-31", "99-99"]) {
      take(`${year}-${end}`);
    }
  }
  date(`${year}-02-29T12:34:56.789Z`);
  date(`${year}-02-29T12:34:56`);
}
for (const year of ["1900", "2020"]) {
  for (let month = 1; month <= 12; month += 1) {
    for (let n = 0; n <= 32; n += 1) date(`${year}-${digits(month, 2)}-${digits(n, 2)}`);
  }
}

// Hours, minutes and seconds past their ends.
for (const time of ["00:00:00", "23:59:59", "24:00:00", "23:60:00", "23:59:60", "24:60:60", "99:00:00", "00:99:00", "00:00:99"]) {
  for (const end of ["", "Z", ".5", ".500Z", "+01:00", ".5-0130"]) date(`2021-06-15T${time}${end}`);
}

// Offsets, within the range and out of it at its ends.
const OFFSET_CHECKS = [
  ..."0123456789",
  ...["00", "09", "23", "24", "99", "000", "059", "060", "959", "999"],
  ...["0000", "0059", "0060", "2359", "2360", "2400", "9999", "0:00", "0:59", "0:60", "9:59"],
  ...["00:00", "00:01", "00:59", "00:60", "14:00", "23:59", "23:60", "24:00", "99:99"],
  ...["", ":", "1:", "1:0", "01:0", ":00", "1:000", "001:00", "00:000", "00000", "0 0", "+1", "1Z"],
];
for (const at of ["0000-01-01T00:00:00", "9999-12-31T23:59:59.999", "2020-03-01T00:30:00.000", "0000-01-01T00:00:00.000"]) {
  for (const offset of OFFSET_CHECKS) {
    date(`${at}+${offset}`);
    date(`${at}-${offset}`);
  }
}
for (const at of ["0000-01-01T00:59:59.999", "0000-01-01T01:00:00", "9999-12-31T22:59:59.999", "9999-12-31T23:00:00"]) {
  for (const end of ["Z", "+01:00", "-01:00", "+1", "-1", "+0100", "-0100", "+100", "-100", "+00:59", "-00:59"]) date(at + end);
}

// Dates at random, in each form; and any numbers there, most of them wrong.
function fill(form, number) {
  const fraction = Array.from({ length: between(1, 9) }, () => random(10)).join("");
  return form
    .replace(/\+[HM:]+$/, (end) => {
      const wide = end.includes("HH") ? 2 : 1;
      const hours = digits(number(0, wide === 2 ? 23 : 9, wide), wide);
      return pick("+-") + end.slice(1).replace(/H+/, hours).replace("MM", digits(number(0, 59, 2), 2));
    })
    .replace("YYYY", digits(number(0, 9999, 4), 4))
    .replace("-MM", () => "-" + digits(number(1, 12, 2), 2))
    .replace("-DD", () => "-" + digits(number(1, 28, 2), 2))
    .replace("hh", digits(number(0, 23, 2), 2))
    .replace("mm", digits(number(0, 59, 2), 2))
    .replace("ss", digits(number(0, 59, 2), 2))
    .replace(".S", "." + fraction);
}
const rightNumber = (least, most) => between(least, most);
const mostlyRight = (least, most, width) => (random(4) > 0 ? between(least, most) : random(10 ** width));
for (const form of FORMS) {
  for (let i = 0; i < 12; i += 1) {
    date(fill(form, rightNumber));
    date(fill(form, mostlyRight));
    day(fill(form, mostlyRight));
  }
  day(fill(form, rightNumber));
}

// Other texts.
const FULLWIDTH = utf8("２０２０-01-01");
const ODD = [
  ...["", " ", "0", "20", "202", "20200", "02020", "+2020", "-2020", "-0001", "+002020-01-01", "-000001-01-01", "12020-01-01", "10000"],
  ...["10000-01-01", "20200101", "2020-1-1", "2020-01-1", "2020-1-01", "2020/01/01", "2020-001", "2020-W01", "2020-W01-1", "2020-01-", "2020-"],
  ...["2020-01-01T", "2020-01-01t00:00:00Z", "2020-01-01T00:00:00z", "2020-01-01 00:00:00Z", "2020-01-01T00:00Z", "2020-01-01T00:00"],
  ...["2020-01-01T00", "2020-01-01T0:00:00", "2020-01-01T00:0:00", "2020-01-01T00:00:0", "2020-01-01T00:00:00,5", "2020-01-01T00:00:00."],
  ...["2020-01-01T00:00:00.Z", "2020-01-01T00:00:00ZZ", "2020-01-01T00:00:00Z+01", "2020-01-01T00:00:00.5.5", "2020-01-01T00:00:00.5Z5"],
  ...["2020-01-01T000000", "2020-01-01Z", "2020Z", "2020-01Z", "2020-01-01+01:00", "2020.5", "2020-01-01.5", "2020T00:00:00", "2020-01T00:00:00"],
  ...["20-01-01", "01-01-2020", "1/1/2020", "Jan 1 2020", "now", "NaN", "null", "0x7e4", "2e3", "2020-0a-01", "2020-01-0a", "--01-01"],
  ...["２０２０", "٢٠٢٠", "2020-01-０１", "2020−01−01", "2020-01-01T00:00:00−01:00", "2020‐01‐01", "\ufeff2020", "2020\u00a0", "二〇二〇"].map(utf8),
];
for (const odd of [...ODD, FULLWIDTH, FULLWIDTH + "T00:00:00Z"]) {
  date(odd);
  day(odd);
}
for (const good of ["2020", "2020-01", "2020-01-01", "2020-01-01T00:00:00", "2020-01-01T00:00:00.000Z", "2020-01-01T00:00:00+01:00"]) {
  for (const extra of [" ", "\0", "\r", "0", "9", "-", "+", "T", "Z", ".", ":", "/", "\x7f", "\x80", "\xb2", "\xff", good]) {
    date(extra + good);
    date(good + extra);
    if (good.length <= 10) {
      day(extra + good);
      day(good + extra);
    }
  }
  for (let length = 1; length < good.length; length += 1) date(good.slice(0, length));
}

// One byte changed: dropped, doubled, or replaced, by every other byte at one place of each kind, elsewhere by some.
function mutants(good, take, replacements) {
  for (let i = 0; i < good.length; i += 1) {
    take(good.slice(0, i) + good.slice(i + 1));
    take(good.slice(0, i + 1) + good.slice(i));
    for (const byte of replacements(i)) take(good.slice(0, i) + byte + good.slice(i + 1));
  }
}
const byte = (code) => String.fromCharCode(code & 255);
const EVERY_BYTE = Array.from({ length: 256 }, (_, code) => byte(code)).filter((b) => b !== "\t" && b !== "\n");
const near = (good) => (i) => {
  const code = good.charCodeAt(i);
  return [byte(code - 1), byte(code + 1), byte(code ^ 32), byte(code ^ 128), "0", "9", "/", ":", " "];
};
const only = (mark) => (i) => (i === mark ? EVERY_BYTE : []);
mutants("2019", date, () => EVERY_BYTE);
mutants("2020-02", date, only(4));
mutants("2020-02-29T01:02:03", date, only(10));
mutants("2020-02-29T01:02:03", date, only(13));
mutants("2020-02-29T01:02:03Z", date, only(19));
mutants("2020-02-29T01:02:03+5", date, only(19));
mutants("2020-02-29T01:02:03.4", date, only(19));
mutants("1996-12-30", day, near("1996-12-30"));
for (const good of ["2000-02-29", "1999-12-31T23:59:59", "2004-02-29T20:19:08.7+1:45", "2021-10-05T04:03:02.010Z"]) {
  mutants(good, date, near(good));
}

// ---- shifts

const MAX = Number.MAX_SAFE_INTEGER;
const HUGE = [MAX, MAX - 1, MAX - 11, MAX - 12, 4503599627370496, 2 ** 32, 2 ** 31, 8.64e15, 1e15, 1e12, 3e9].flatMap((n) => [n, -n]);
const SMALL = [0, 1, 2, 11, 12, 13, 24, 25, 30, 31, 366, 4800].flatMap((n) => [n, -n]);
const OUTSIDE = [EARLIEST - 1, LATEST + 1, EARLIEST - 86400000, LATEST + 86400000, -8.64e15, 8.64e15, MAX, -MAX];
const at = (iso) => Date.parse(iso);
const STARTS = [
  "2020-01-31T00:00:00.000Z",
  "2020-02-29T12:34:56.789Z",
  "2019-12-31T23:59:59.999Z",
  "2100-03-31T00:00:00.001Z",
  "1970-01-01T00:00:00.000Z",
  "1969-12-31T23:59:59.999Z",
  "0004-02-29T05:00:00.000Z",
].map(at);

for (const unit of Object.keys(UNITS)) {
  for (const start of STARTS) for (const amount of SMALL) shift(start, amount, unit);
  for (const start of [EARLIEST, LATEST, STARTS[0], STARTS[5]]) for (const amount of HUGE) shift(start, amount, unit);
  for (const start of [EARLIEST, EARLIEST + 1, EARLIEST + 3599999, LATEST, LATEST - 1, LATEST - 3599999, LATEST - 3600000]) {
    for (const amount of [0, 1, -1, 12, -12, 9999, -9999, 10000, -10000]) shift(start, amount, unit);
  }
  for (const start of OUTSIDE) for (const amount of [0, 1, -1, 100000]) shift(start, amount, unit);
}
// From end to end of the range, and one unit more.
const SPANS = { year: 9999, month: 119999, day: 3652424, hour: 87658199 };
for (const [unit, span] of Object.entries(SPANS)) {
  for (const more of [-1, 0, 1, 2]) {
    shift(EARLIEST, span + more, unit);
    shift(LATEST, -span - more, unit);
    shift(EARLIEST + 86399999, span + more, unit);
    shift(LATEST - 86399999, -span - more, unit);
    shift(0, span + more, unit);
    shift(0, -span - more, unit);
  }
}
// Amounts whose milliseconds, taken modulo 2^63 or 2^64, would come back into the range.
for (const [unit, ms] of [["day", 86400000], ["hour", 3600000]]) {
  for (const wrap of [2 ** 63, 2 ** 64]) {
    for (const times of [1, 2, 3, 1000]) {
      const amount = Math.floor((wrap / ms) * times);
      for (const n of [amount, amount + 1, -amount, -amount - 1]) shift(STARTS[0], n, unit);
    }
  }
}
// Month ends, which run on, at the ends of the range too.
for (const iso of ["0000-01-31", "0000-02-29", "0000-03-31", "2019-03-31", "2020-03-31", "9999-01-29", "9999-10-31", "9999-12-31", "9996-02-29"]) {
  for (const amount of [-12, -11, -2, -1, 1, 2, 11, 12]) {
    shift(at(iso + "T00:00:00.000Z"), amount, "month");
    shift(at(iso + "T23:59:59.999Z"), amount, "year");
  }
}
for (let i = 0; i < 100; i += 1) {
  shift(randomInstant(), between(-4000, 4000), "year");
  shift(randomInstant(), between(-50000, 50000), "month");
  shift(randomInstant(), between(-1500000, 1500000), "day");
  shift(randomInstant(), between(-40000000, 40000000), "hour");
}

// ---- the texts of instants

for (const middle of [EARLIEST, LATEST, 0, ...STARTS]) {
  for (const by of [0, 1, -1, 999, 1000, 59999, 60000, 3599999, 3600000, 86399999, 86400000, -86400000]) {
    const ms = middle + by;
    if (ranged(ms) !== "refused 9") text(ms);
  }
}
for (let i = 0; i < 200; i += 1) text(randomInstant());

process.stdout.write(Buffer.from([...lines].map((l) => l + "\n").join(""), "latin1"));
process.stderr.write(`${lines.size} vectors; Date.parse agreed on ${parsed} texts\n`);
