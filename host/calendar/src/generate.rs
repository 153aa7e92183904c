//! Random texts and shifts.

use crate::dates::{self, EARLIEST, LATEST};
use crate::random::Random;

const MS_PER_HOUR: i64 = 3_600_000;
const MS_PER_DAY: i64 = 24 * MS_PER_HOUR;

/// A number of two digits up to `last` and at least `first`; rarely just outside, or any.
fn part(random: &mut Random, first: usize, last: usize) -> usize {
    match random.below(20) {
        0 => random.pick(&[first.saturating_sub(1), last + 1]),
        1 => random.below(100),
        2..=4 => random.pick(&[first, last]),
        _ => random.between(first, last),
    }
}

fn year(random: &mut Random) -> usize {
    match random.below(10) {
        0 => random.pick(&[0, 1, 4, 99, 100, 399, 400, 1969, 1970, 9996, 9998, 9999]),
        1 => random.below(100) * 100,
        2 => random.below(2500) * 4,
        3..=5 => random.between(1900, 2100),
        _ => random.below(10_000),
    }
}

fn day(random: &mut Random) -> String {
    if random.chance(15) {
        // Where an offset leads out of the range, or just not.
        return random.pick(&["0000-01-01", "9999-12-31", "0000-01-02", "9999-12-30"]).to_string();
    }
    let month = part(random, 1, 12);
    let last = if random.chance(60) { 28 } else { 31 };
    format!("{:04}-{:02}-{:02}", year(random), month, part(random, 1, last))
}

fn digits(random: &mut Random, count: usize) -> String {
    (0..count).map(|_| char::from(b'0' + random.below(10) as u8)).collect()
}

fn time(random: &mut Random) -> String {
    if random.chance(15) {
        return random.pick(&["00:00:00", "23:59:59", "00:00:59", "23:00:00", "00:59:00"]).to_string();
    }
    format!("{:02}:{:02}:{:02}", part(random, 0, 23), part(random, 0, 59), part(random, 0, 59))
}

fn fraction(random: &mut Random) -> String {
    let count = match random.below(20) {
        0 => 0,
        1 => random.between(10, 20),
        2 => 9,
        _ => random.between(1, 9),
    };
    format!(".{}", digits(random, count))
}

fn offset(random: &mut Random) -> String {
    let sign = random.pick(&['+', '-']);
    let (hour, minute) = (part(random, 0, 23), part(random, 0, 59));
    match random.below(14) {
        0..=1 => format!("{}{}", sign, hour % 10),
        2..=3 => format!("{}{:02}", sign, hour),
        4..=5 => format!("{}{}{:02}", sign, hour % 10, minute),
        6..=7 => format!("{}{:02}{:02}", sign, hour, minute),
        8..=9 => format!("{}{}:{:02}", sign, hour % 10, minute),
        10..=12 => format!("{}{:02}:{:02}", sign, hour, minute),
        _ => {
            // No offset, but nearly one.
            let (before, after) = (random.below(6), random.below(4));
            let colon = if random.chance(50) { ":" } else { "" };
            format!("{}{}{}{}", sign, digits(random, before), colon, digits(random, after))
        }
    }
}

/// A text by one of the forms, with numbers that are most often good.
fn by_form(random: &mut Random) -> String {
    match random.below(20) {
        0 => format!("{:04}", year(random)),
        1..=2 => format!("{:04}-{:02}", year(random), part(random, 1, 12)),
        3..=5 => day(random),
        _ => {
            let mut text = format!("{}T{}", day(random), time(random));
            if random.chance(50) {
                text += &fraction(random);
            }
            match random.below(10) {
                0 => {}
                1 => text += "Z",
                _ => text += &offset(random),
            }
            text
        }
    }
}

/// Bytes of date texts, and their neighbours.
const BYTES: &[u8] = b"0123456789-+:.TZtz /;,\0\x7f\xb0\xff";

/// Puts in, takes out, changes or moves a byte or some.
fn damage(random: &mut Random, text: &mut Vec<u8>) {
    for _ in 0..random.pick(&[1, 1, 1, 2, 3]) {
        let at = random.below(text.len() + 1);
        let other = random.below(text.len() + 1);
        let byte = if random.chance(80) { random.pick(BYTES) } else { random.byte() };
        match random.below(7) {
            0 => text.insert(at, byte),
            1 => text.truncate(at),
            2 => drop(text.drain(at.min(other)..at.max(other))),
            3 => text.push(byte),
            _ if at == text.len() => {}
            4 => drop(text.remove(at)),
            5 if other < text.len() => text.swap(at, other),
            _ => text[at] = byte,
        }
    }
}

pub fn text(random: &mut Random) -> Vec<u8> {
    let mut text = by_form(random).into_bytes();
    if random.chance(25) {
        damage(random, &mut text);
    }
    text
}

/// An instant: any in range, near an end of it, near midnight, at a month's end, outside, or any number.
pub fn instant(random: &mut Random) -> i64 {
    let near = |random: &mut Random| random.below(5) as i64 - 2;
    match random.below(20) {
        0 => random.pick(&[EARLIEST, LATEST, 0]) + near(random),
        1 => random.pick(&[EARLIEST, LATEST]) + near(random) * MS_PER_DAY * random.below(400) as i64,
        2 => random.next() as i64,
        3 => random.pick(&[i64::MIN, i64::MAX, -1, 0, 1, EARLIEST - 1, LATEST + 1]),
        4..=6 => {
            // At a month's end; often the 29th of February.
            let leap = random.chance(50);
            let (year, month) =
                if leap { (random.below(2_500) * 4, 2) } else { (random.below(10_000), random.between(1, 12)) };
            let last = dates::read_day(format!("{:04}-{:02}", year, month).as_bytes());
            last.unwrap_or(0) + random.below(MS_PER_DAY as usize) as i64
        }
        7..=10 => {
            // Near the start of a day.
            let days = random.below(3_652_425) as i64;
            (EARLIEST + days * MS_PER_DAY + near(random)).clamp(EARLIEST, LATEST)
        }
        _ => EARLIEST + (random.next() % (LATEST - EARLIEST + 1) as u64) as i64,
    }
}

/// An amount for a unit: small, across the range, just about its ends, at the limits of integers, or any.
pub fn amount(random: &mut Random, from: i64, unit: u32) -> i64 {
    const MAX_INTEGER: i64 = 9_007_199_254_740_991;
    let ms = [365 * MS_PER_DAY + MS_PER_DAY / 4, 30 * MS_PER_DAY, MS_PER_DAY, MS_PER_HOUR][unit as usize % 4];
    let range = (LATEST - EARLIEST) / ms;
    let sign = random.pick(&[-1, 1]);
    match random.below(20) {
        0..=6 => sign * random.below(40) as i64,
        7..=9 => sign * random.below(3000) as i64,
        10..=14 => sign * random.below(range as usize + 1) as i64,
        15..=16 => {
            let end = random.pick(&[EARLIEST, LATEST]);
            end.saturating_sub(from) / ms + random.below(9) as i64 - 4
        }
        17 => {
            let limit = random.pick(&[range, MAX_INTEGER, i64::MAX, i64::MAX / ms, i64::MAX / 12]);
            sign * limit.saturating_add(random.below(5) as i64 - 2)
        }
        18 => random.pick(&[i64::MIN, i64::MAX, i64::MIN + 1, 0, -1, 1 << 32, 1 << 53]),
        _ => random.next() as i64 >> random.below(64),
    }
}
