//! Random values. Those for a record hold no instant, names that differ, and only what a text can read as.

use crate::dates::{EARLIEST, LATEST};
use crate::layout::context;
use crate::random::Random;
use crate::value::{Value, MAX_NESTING, MAX_TEXT_BYTES, MAX_VALUES};

/// Characters that are escaped or stand next to such, and the ends of what UTF-8 writes with one to four bytes.
#[rustfmt::skip]
const EDGES: [char; 24] = [
    '\0', '\u{7}', '\u{8}', '\t', '\n', '\u{b}', '\u{c}', '\r', '\u{e}', '\u{1f}', ' ', '!', '"', '#', '/', '[', '\\',
    ']', '\u{7f}', '\u{80}', '\u{7ff}', '\u{800}', '\u{ffff}', '\u{10ffff}',
];

// ---- scalars

/// Characters, so many percent of them no plain letters.
pub fn characters(random: &mut Random, length: usize, odd: usize) -> Vec<u8> {
    let mut text = String::new();
    for _ in 0..length {
        text.push(match random.chance(odd) {
            false => random.pick(b"abcdefghijklmnopqrstuvwxyz0189 _-.:#") as char,
            true => match random.below(6) {
                0 => random.below(0x20) as u8 as char,
                1 => char::from_u32(random.between(0x80, 0xd7ff) as u32).unwrap_or(' '),
                2 => char::from_u32(random.between(0x1_0000, 0x10_ffff) as u32).unwrap_or(' '),
                _ => random.pick(&EDGES),
            },
        });
    }
    text.into_bytes()
}

pub fn string(random: &mut Random) -> Vec<u8> {
    let length = random.pick(&[0, 1, 2, 3, 5, 8, 13, 40]);
    let (length, odd) = (random.between(0, length), random.pick(&[0, 10, 50, 100]));
    characters(random, length, odd)
}

/// A string of any bytes, which only a cell can have.
pub fn any_bytes(random: &mut Random) -> Vec<u8> {
    let length = random.below(20);
    (0..length).map(|_| random.byte()).collect()
}

/// An integer within the limits.
pub fn integer(random: &mut Random) -> i128 {
    let magnitude = match random.below(8) {
        0 => 0,
        1 => i128::from(reader::MAX_INTEGER) - random.below(3) as i128,
        2 => 10_i128.pow(random.below(16) as u32),
        3 => 10_i128.pow(random.below(16) as u32) - 1,
        4 => i128::from(random.next() >> random.between(11, 63)),
        _ => random.below(1_000) as i128,
    };
    if random.chance(40) {
        -magnitude
    } else {
        magnitude
    }
}

/// Also one that a cell can have and no text.
pub fn any_integer(random: &mut Random) -> i128 {
    let bias = 1_i128 << 53;
    match random.below(4) {
        0 => -bias,
        1 => (1 << 56) - 1 - bias - random.below(3) as i128,
        2 => i128::from(random.next() >> 8) - bias,
        _ => integer(random),
    }
}

/// An instant of the range, often at an edge of it, of a year, of a day or of 1970.
pub fn instant(random: &mut Random) -> i64 {
    const DAY: i64 = 86_400_000;
    let near = match random.below(6) {
        0 => EARLIEST,
        1 => LATEST,
        2 => 0,
        3 => random.pick(&[951_782_400_000, 951_868_800_000, 946_684_800_000, 4_107_542_400_000, -2_203_891_200_000]),
        _ => EARLIEST + (random.next() % (LATEST - EARLIEST) as u64) as i64,
    };
    let moved = near + random.pick(&[0, 0, 1, -1, 999, 1_000, -1_000, DAY, -DAY, DAY - 1, 59_999, 3_599_999]);
    moved.clamp(EARLIEST, LATEST)
}

fn read_scalar(random: &mut Random) -> Value {
    match random.below(6) {
        0 => Value::Null,
        1 => Value::Boolean(random.chance(50)),
        2..=3 => Value::Integer(integer(random)),
        _ => Value::String(string(random)),
    }
}

pub fn scalar(random: &mut Random) -> Value {
    match random.below(10) {
        0..=1 => Value::Instant(instant(random)),
        2 => Value::String(any_bytes(random)),
        3 => Value::Integer(any_integer(random)),
        _ => read_scalar(random),
    }
}

// ---- values

/// A name that differs from others by its number.
fn name(random: &mut Random, at: usize) -> Vec<u8> {
    match random.below(4) {
        0 => at.to_string().into_bytes(),
        1 => format!("{}{}", "n".repeat(random.below(40)), at).into_bytes(),
        2 if at == 0 => Vec::new(),
        _ => [string(random), format!("~{}", at).into_bytes()].concat(),
    }
}

/// A value for a record, of at most about `left` values.
fn read_value(random: &mut Random, depth: usize, left: &mut usize) -> Value {
    *left = left.saturating_sub(1);
    if depth == 0 || *left == 0 || random.chance(30) {
        return read_scalar(random);
    }
    let count = random.between(0, (*left).min(9));
    if random.chance(50) {
        Value::Array((0..count).map(|_| read_value(random, depth - 1, left)).collect())
    } else {
        Value::Object((0..count).map(|at| (name(random, at), read_value(random, depth - 1, left))).collect())
    }
}

/// The same with what only evaluation gives: instants, lists of anything, contexts.
fn computed(random: &mut Random, depth: usize, left: &mut usize) -> Value {
    *left = left.saturating_sub(1);
    if depth == 0 || *left == 0 || random.chance(20) {
        return scalar(random);
    }
    match random.below(10) {
        0..=2 => read_value(random, depth, left),
        3..=4 => context(computed(random, depth - 1, left), computed(random, depth - 1, left)),
        _ => {
            let count = random.between(0, (*left).min(9));
            let mut items: Vec<Value> = (0..count).map(|_| computed(random, depth - 1, left)).collect();
            if count > 1 && random.chance(30) {
                // The same item again, for cells to be shared.
                items[count - 1] = items[random.below(count - 1)].clone();
            }
            Value::Array(items)
        }
    }
}

pub fn ordinary(random: &mut Random) -> Value {
    let mut left = random.pick(&[1, 4, 8, 15, 30, 60, 200]);
    let depth = random.pick(&[1, 2, 4, 8, 20]);
    computed(random, depth, &mut left)
}

/// What a record may be.
pub fn record(random: &mut Random) -> Value {
    let mut left = random.pick(&[1, 8, 15, 30, 60, 300]);
    let depth = random.pick(&[1, 2, 4, 8, 30]);
    read_value(random, depth, &mut left)
}

/// Wraps a value into an array or object, sometimes with another part; for a record if `read`.
fn wrapped(random: &mut Random, inner: Value, read: bool) -> Value {
    let side = random.chance(20).then(|| if read { read_scalar(random) } else { scalar(random) });
    match (random.below(3), side) {
        (0, None) if read => Value::Object(vec![(string(random), inner)]),
        (0, Some(side)) if read => Value::Object(vec![(b"a".to_vec(), side), (b"b".to_vec(), inner)]),
        (0, side) if !read => {
            let side = side.unwrap_or(Value::Null);
            if random.chance(50) {
                context(side, inner)
            } else {
                context(inner, side)
            }
        }
        (1, Some(side)) => Value::Array(vec![inner, side]),
        (_, Some(side)) => Value::Array(vec![side, inner]),
        (_, None) => Value::Array(vec![inner]),
    }
}

/// Of this nesting. The innermost ones may be read from a record, the outer ones are computed.
pub fn nested(random: &mut Random, nesting: usize) -> Value {
    let read = random.pick(&[0, 0, nesting / 2, MAX_NESTING.min(nesting)]);
    let mut value = Value::Array(Vec::new());
    if random.chance(30) {
        value = wrapped(random, Value::Integer(0), read > 0);
    } else if read > 0 && random.chance(50) {
        value = Value::Object(Vec::new());
    }
    for level in 1..nesting {
        value = wrapped(random, value, level < read);
    }
    value
}

/// Of exactly so many values, with short texts.
pub fn counted(random: &mut Random, values: usize, depth: usize) -> Value {
    if values == 1 {
        return [Value::Integer(0), Value::Null, Value::Array(Vec::new())][random.below(3)].clone();
    }
    let mut left = values - 1;
    let mut items = Vec::new();
    let wide = depth == 0 || random.chance(40);
    while left > 0 {
        let most = if wide { 1 } else { left.min(random.pick(&[1, 5, 60, 600])) };
        let part = random.between(1, most);
        items.push(counted(random, part, depth.saturating_sub(1)));
        left -= part;
    }
    if random.chance(20) {
        let named = items.into_iter().enumerate().map(|(at, item)| (at.to_string().into_bytes(), item));
        return Value::Object(named.collect());
    }
    Value::Array(items)
}

/// Bytes whose text has exactly this length.
fn filler(random: &mut Random, mut length: usize) -> Vec<u8> {
    let pieces: [(&[u8], usize); 7] =
        [(b"x", 1), (b"\xc3\xa9", 2), (b"\xf0\x9f\x98\x80", 4), (b"\n", 2), (b"\\", 2), (b"\x1f", 6), (b"\x7f", 1)];
    let mixed = random.chance(30);
    let (mut piece, mut bytes) = (random.pick(&pieces), Vec::new());
    while length > 0 {
        if mixed {
            piece = random.pick(&pieces);
        }
        let (spelled, spelling) = if piece.1 <= length { piece } else { pieces[0] };
        bytes.extend(spelled);
        length -= spelling;
    }
    bytes
}

/// With a text of exactly this length: a long string, or two, in a small value.
pub fn long(random: &mut Random, length: usize) -> Value {
    let around = |first: Vec<u8>, second: Vec<u8>, form: usize| match form {
        0 => Value::String(first),
        1 => Value::Array(vec![Value::Null, Value::String(first), Value::String(second)]),
        2 => context(Value::String(first), Value::String(second)),
        _ => Value::Object(vec![(first, Value::Integer(-7)), (b"b".to_vec(), Value::String(second))]),
    };
    let form = random.below(4);
    let left = length - around(Vec::new(), Vec::new(), form).text().len();
    let first = if form == 0 { left } else { random.pick(&[0, left, left / 2]) };
    around(filler(random, first), filler(random, left - first), form)
}

/// With a text of exactly this length, of many items.
pub fn of_items(random: &mut Random, length: usize) -> Value {
    let mut items = Vec::new();
    let mut left = length - 1; // an item and its comma, or the last bracket
    let sort = random.below(4);
    let shown = Value::Instant(instant(random));
    while left > 60 {
        let item = match sort {
            0 => shown.clone(),
            1 => Value::Integer(-900_000_000_000_000 - random.below(99_999_999) as i128),
            2 => Value::Array(vec![Value::Instant(instant(random)), Value::Null]),
            _ => Value::String(characters(random, 20, 0)),
        };
        left -= item.text().len() + 1;
        items.push(item);
    }
    // Digits fill the rest.
    while left > 17 {
        items.push(Value::Integer(7));
        left -= 2;
    }
    items.push(Value::Integer(10_i128.pow(left as u32 - 2)));
    Value::Array(items)
}

/// A number one below, at or one above a limit, or near it.
pub fn around(random: &mut Random, limit: usize) -> usize {
    match random.below(8) {
        0 => limit - random.between(2, 9),
        1 => limit + random.between(2, 9),
        2..=3 => limit - 1,
        4..=5 => limit,
        _ => limit + 1,
    }
}

pub fn around_nesting(random: &mut Random) -> Value {
    let nesting = random.pick(&[MAX_NESTING - 1, MAX_NESTING, MAX_NESTING, MAX_NESTING + 1, MAX_NESTING + 1, 40]);
    nested(random, nesting)
}

pub fn around_values(random: &mut Random) -> Value {
    let values = around(random, MAX_VALUES);
    let depth = random.pick(&[0, 1, 2, 5, 20]);
    counted(random, values, depth)
}

pub fn around_length(random: &mut Random) -> Value {
    let length = around(random, MAX_TEXT_BYTES);
    long(random, length)
}

pub fn around_items(random: &mut Random) -> Value {
    let length = around(random, MAX_TEXT_BYTES);
    of_items(random, length)
}

#[cfg(test)]
mod tests {
    use super::*;

    #[test]
    fn values_are_as_asked_for() {
        let mut random = Random::new(1);
        for _ in 0..300 {
            assert_eq!(nested(&mut random, 33).nesting(), 33);
            assert_eq!(nested(&mut random, 1).nesting(), 1);
            for (values, depth) in [(1_025, 0), (1_024, 20), (2, 5), (1, 3)] {
                assert_eq!(counted(&mut random, values, depth).count(), values);
            }
            for length in [16_383, 16_384, 16_385, 1_000] {
                assert_eq!(long(&mut random, length).text().len(), length);
                assert_eq!(of_items(&mut random, length).text().len(), length);
            }
        }
    }
}
