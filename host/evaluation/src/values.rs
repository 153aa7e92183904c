//! Random values for records, of kinds that rules ask for.

use crate::date_texts;
use crate::dates;
use crate::random::Random;
use writer::value::Value;

pub const MAX_INTEGER: i64 = reader::MAX_INTEGER as i64;

/// What a rule may ask for.
#[derive(Clone, Copy, Debug, PartialEq, Eq)]
pub enum Kind {
    Null,
    Boolean,
    Integer,
    String,
    Date,
    Day,
    Uvci,
    Instant,
    Integers,
    Strings,
    Array,
    Object,
}

#[rustfmt::skip]
pub const KINDS: [Kind; 12] = [
    Kind::Null, Kind::Boolean, Kind::Integer, Kind::String, Kind::Date, Kind::Day, Kind::Uvci, Kind::Instant,
    Kind::Integers, Kind::Strings, Kind::Array, Kind::Object,
];

impl Kind {
    /// The narrowest kind of a record's value.
    pub fn of(value: &Value) -> Kind {
        match value {
            Value::Null => Kind::Null,
            Value::Boolean(_) => Kind::Boolean,
            Value::Integer(_) => Kind::Integer,
            Value::String(text) if dates::read_day(text).is_ok() => Kind::Day,
            Value::String(text) if dates::read_date(text).is_ok() => Kind::Date,
            Value::String(text) if text.iter().any(|byte| b"/#:".contains(byte)) => Kind::Uvci,
            Value::String(_) => Kind::String,
            Value::Instant(_) => Kind::Instant,
            Value::Array(items) if items.iter().all(|item| matches!(item, Value::Integer(_))) => Kind::Integers,
            Value::Array(items) if items.iter().all(|item| matches!(item, Value::String(_))) => Kind::Strings,
            Value::Array(_) => Kind::Array,
            Value::Object(_) => Kind::Object,
        }
    }

    /// A value of this kind is one of the wanted kind.
    pub fn serves(self, wanted: Kind) -> bool {
        let wider = match self {
            Kind::Day => &[Kind::Date, Kind::String][..],
            Kind::Date | Kind::Uvci => &[Kind::String],
            Kind::Integers | Kind::Strings => &[Kind::Array],
            _ => &[],
        };
        self == wanted || wider.contains(&wanted)
    }
}

pub fn integer(number: i64) -> Value {
    Value::Integer(number.into())
}

pub fn string(content: &str) -> Value {
    Value::String(content.as_bytes().to_vec())
}

pub fn member(name: &str, content: Value) -> (Vec<u8>, Value) {
    (name.as_bytes().to_vec(), content)
}

/// Most often small, so that many are equal; sometimes at the limits.
pub fn any_integer(random: &mut Random) -> i64 {
    let sign = random.pick(&[-1, 1, 1]);
    sign * match random.below(12) {
        0..=5 => random.below(5) as i64,
        6..=7 => random.below(200) as i64,
        8 => random.pick(&[1 << 31, 1 << 32, (1 << 32) + 1, (1 << 53) - 1, 1 << 52]),
        9 => MAX_INTEGER - random.below(3) as i64,
        10 => MAX_INTEGER / 2 + random.below(3) as i64,
        _ => (random.next() >> random.between(11, 63)) as i64,
    }
}

pub fn any_string(random: &mut Random) -> String {
    let pieces =
        ["a", "b", "0", "1", "x", "y", " ", "true", "\"", "\\", "\n", "\u{1}", "/", "é", "€", "😀", "\0", "\u{ffff}"];
    (0..random.pick(&[0, 1, 1, 1, 2, 3, 6])).map(|_| random.pick(&pieces)).collect()
}

/// A date text, most often a good one.
pub fn date_text(random: &mut Random) -> Vec<u8> {
    let mut text = date_texts::text(random);
    if random.chance(2) {
        text.make_ascii_lowercase();
    }
    let is_text = std::str::from_utf8(&text).is_ok();
    if is_text && (dates::read_date(&text).is_ok() || random.chance(30)) {
        return text;
    }
    day_text(random)
}

pub fn day_text(random: &mut Random) -> Vec<u8> {
    let text = match random.below(8) {
        0 => format!("{:04}", random.below(10_000)),
        1..=2 => format!("{:04}-{:02}", random.below(10_000), random.between(1, 12)),
        3 => format!("{:04}-{:02}-{:02}", random.below(10_000), random.below(14), random.between(27, 33)),
        4 => random.pick(&["0000-01-01", "0000", "9999-12-31", "9999", "1900-02-28", "2021-02-29"]).to_string(),
        5 => random.pick(&["2020-02-29", "2024-02-29", "2021-01-31", "2019-10-31", "2020-12-31"]).to_string(),
        _ => format!("20{:02}-{:02}-{:02}", random.below(30), random.between(1, 12), random.between(1, 28)),
    };
    text.into_bytes()
}

#[rustfmt::skip]
const PREFIXES: [&str; 15] = [
    "", "", "URN:UVCI:", "URN:UVCI:", "URN/UVCI#", "URN#UVCI/", "URN:UVCI", "URN", "UVCI:", "UVCI:URN:", "urn:uvci:",
    "URN::UVCI:", "URN:UVCI:URN:UVCI:", " URN:UVCI:", "URN:UVCIS:",
];

pub fn uvci_text(random: &mut Random) -> String {
    let mut text = random.pick(&PREFIXES).to_string();
    for at in 0..random.below(6) {
        if at > 0 {
            text.push(random.pick(&['/', '#', ':', ':', '-', '\\']));
        }
        text += random.pick(&["01", "NL", "", "é", "dADOES78", "URN", "UVCI", "a/", "\u{0}", "x"]);
    }
    text
}

/// Names of members; some look like an index, some cannot be reached by a path.
#[rustfmt::skip]
const NAMES: [&str; 30] = [
    "a", "b", "c", "ab", "i", "s", "d", "u", "l", "o", "0", "1", "2", "00", "01", "-1", "length", "current",
    "accumulator", "data", "payload", "dob", "é", "€", "😀", "a b", "a.b", "", "\u{0}", "\"",
];

/// An object of so many members at most.
fn object(random: &mut Random, members: usize, mut content: impl FnMut(&mut Random) -> Value) -> Value {
    let mut made: Vec<(Vec<u8>, Value)> = Vec::new();
    for _ in 0..members {
        let name = random.pick(&NAMES).as_bytes().to_vec();
        if made.iter().all(|(other, _)| *other != name) {
            made.push((name, content(random)));
        }
    }
    Value::Object(made)
}

/// A value as a record may hold, of this kind; an instant cannot stand in a record.
pub fn of_kind(random: &mut Random, kind: Kind, depth: usize) -> Value {
    let count = random.pick(&[0, 1, 2, 3, 3, 5, 11]);
    match kind {
        Kind::Null | Kind::Instant => Value::Null,
        Kind::Boolean => Value::Boolean(random.chance(50)),
        Kind::Integer => integer(any_integer(random)),
        Kind::String => string(&any_string(random)),
        Kind::Date => Value::String(date_text(random)),
        Kind::Day => Value::String(day_text(random)),
        Kind::Uvci => string(&uvci_text(random)),
        Kind::Integers => Value::Array((0..count).map(|_| integer(any_integer(random))).collect()),
        Kind::Strings => {
            let kind = random.pick(&[Kind::String, Kind::Date, Kind::Day, Kind::Uvci]);
            Value::Array((0..count).map(|_| of_kind(random, kind, 0)).collect())
        }
        Kind::Array => Value::Array((0..count).map(|_| any(random, depth.saturating_sub(1))).collect()),
        Kind::Object => object(random, count, |random| any(random, depth.saturating_sub(1))),
    }
}

/// A value that nests about so deep.
pub fn any(random: &mut Random, depth: usize) -> Value {
    let kind = random.pick(&KINDS[..if depth == 0 { 8 } else { KINDS.len() }]);
    of_kind(random, kind, depth)
}

/// A record: most often an object with something of several kinds.
pub fn record(random: &mut Random) -> Value {
    let depth = random.pick(&[1, 1, 2, 3]);
    match random.below(10) {
        0 => any(random, depth),
        1 => of_kind(random, Kind::Array, depth),
        _ => {
            let members = random.between(0, 10);
            object(random, members, |random| any(random, depth))
        }
    }
}

/// The paths of a value that lead to something, with its kind.
pub fn paths(value: &Value) -> Vec<(String, Kind)> {
    let mut found = vec![(String::new(), Kind::of(value))];
    put_paths(value, "", &mut found);
    found
}

fn put_paths(value: &Value, before: &str, found: &mut Vec<(String, Kind)>) {
    let dot = if before.is_empty() { "" } else { "." };
    let mut put = |fragment: &str, part: &Value| {
        if found.len() < 100 {
            let path = format!("{}{}{}", before, dot, fragment);
            found.push((path.clone(), Kind::of(part)));
            put_paths(part, &path, found);
        }
    };
    match value {
        Value::Array(items) => items.iter().enumerate().for_each(|(at, item)| put(&at.to_string(), item)),
        Value::Object(members) => {
            for (name, content) in members {
                match std::str::from_utf8(name) {
                    Ok(name) if !name.is_empty() && !name.contains('.') => put(name, content),
                    _ => {}
                }
            }
        }
        _ => {}
    }
}
