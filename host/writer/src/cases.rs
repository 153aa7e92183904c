//! Random cases, in classes: areas, a cell, the room of an output, and what is to come of them.

use crate::areas::{CELL_BYTES, ROW_BYTES};
use crate::dates::{EARLIEST, LATEST};
use crate::generate;
use crate::layout::{
    cell, cell_of, lay, Lent, CONTEXT, FALSE, INSTANT, INTEGER, ITEMS, LIST, MEMBERS, RECORD_STRING, RULE_STRING, TAGS,
};
use crate::random::Random;
use crate::value::{Value, MAX_TEXT_BYTES, TOO_LARGE};

/// A class of cases, and how its areas are made.
pub struct Class {
    pub name: &'static str,
    /// Of each hundred cases.
    pub share: usize,
    make: fn(&mut Random) -> Lent,
    /// Which of 0, 11 and 12 are to be met in it.
    pub meets: &'static [u32],
}

macro_rules! classes {
    ($($name:literal, $share:literal, $meets:expr, $make:expr;)*) => {
        pub const CLASSES: &[Class] = &[$(Class { name: $name, share: $share, meets: $meets, make: $make }),*];
    };
}

classes! {
    "scalars", 6, &[0, 12], |random| laid(random, generate::scalar);
    "strings of odd bytes", 8, &[0, 12], |random| laid(random, odd_string);
    "instants", 6, &[0, 12], instants;
    "integers", 5, &[0, 12], integers;
    "ordinary values", 12, &[0, 12], |random| laid(random, generate::ordinary);
    "records", 6, &[0, 12], |random| laid(random, generate::record);
    "nesting around 32", 6, &[0, 11, 12], |random| laid(random, generate::around_nesting);
    "values around 1,024", 3, &[0, 11, 12], |random| laid(random, generate::around_values);
    "texts around 16,384 bytes, of strings", 3, &[0, 11, 12], |random| laid(random, generate::around_length);
    "texts around 16,384 bytes, of items", 2, &[0, 11, 12], |random| laid(random, generate::around_items);
    "lists that share cells", 4, &[0, 11, 12], shared;
    "towers of lists that share cells", 3, &[11], tower;
    "cells that are parts of themselves", 3, &[11], cyclic;
    "cells and rows that are not there", 7, &[0, 11, 12], absent;
    "rows that no text has", 2, &[0, 11, 12], unread;
    "damaged cells", 6, &[0, 11, 12], |random| damaged(random, |lent| &mut lent.cells);
    "damaged rows", 6, &[0, 11, 12], |random| damaged(random, |lent| &mut lent.table);
    "damaged strings", 3, &[0, 12], damaged_strings;
    "short areas", 3, &[0, 12], short;
    "noise", 6, &[0, 11, 12], noise;
}

pub struct Case {
    /// Its number among `CLASSES`.
    pub class: usize,
    pub lent: Lent,
    pub room: usize,
    /// Of the value, unless it is far larger than any answer.
    pub size: Option<Size>,
    /// The text, or the refusal.
    pub expected: Result<Vec<u8>, u32>,
}

/// The size of a value.
pub struct Size {
    pub nesting: usize,
    pub values: usize,
    pub bytes: usize,
    pub instants: bool,
}

impl Size {
    fn of(value: &Value) -> Size {
        Size {
            nesting: value.nesting(),
            values: value.count(),
            bytes: value.text().len(),
            instants: value.has_instants(),
        }
    }
}

/// The case of a number.
pub fn case(number: u64) -> Case {
    let mut random = Random::new(number);
    let class = class_at(random.below(100));
    let lent = (CLASSES[class].make)(&mut random);
    let value = lent.areas().unfold(lent.cell);
    let size = value.as_ref().map(Size::of);
    let room = room(&mut random, size.as_ref().map(|size| size.bytes));
    let expected = value.map_or(Err(TOO_LARGE), |value| value.written(room));
    Case { class, lent, room, size, expected }
}

fn class_at(of_hundred: usize) -> usize {
    let mut sum = 0;
    let ends = CLASSES.iter().map(|class| {
        sum += class.share;
        sum
    });
    ends.take_while(|&end| end <= of_hundred).count()
}

/// The room of an output: none, just too short, just enough, one more, as the program has, or more.
fn room(random: &mut Random, length: Option<usize>) -> usize {
    let rooms = [0, MAX_TEXT_BYTES - 1, MAX_TEXT_BYTES, MAX_TEXT_BYTES + 1, MAX_TEXT_BYTES + 3_000];
    match length {
        Some(length) if length <= MAX_TEXT_BYTES + 100 => match random.below(16) {
            0 => 0,
            1 => random.below(length),
            2..=4 => length - 1,
            5..=8 => length,
            9..=10 => length + 1,
            11..=12 => length + random.below(40),
            _ => random.pick(&rooms),
        },
        _ => random.pick(&rooms),
    }
}

// ---- areas of values

/// A value laid out, from a record or not.
fn laid(random: &mut Random, make: fn(&mut Random) -> Value) -> Lent {
    loop {
        let value = make(random);
        let read = random.pick(&[0, 30, 100]);
        if let Some(lent) = lay(random, &value, read).or_else(|| lay(random, &value, 0)) {
            return lent;
        }
    }
}

fn odd_string(random: &mut Random) -> Value {
    let length = random.pick(&[1, 2, 7, 8, 9, 40, 300]);
    let odd = random.pick(&[3, 30, 100]);
    let bytes = if random.chance(30) { generate::any_bytes(random) } else { generate::characters(random, length, odd) };
    Value::String(bytes)
}

/// Cells of instants, alone or in a list, some past the latest.
fn instants(random: &mut Random) -> Lent {
    let latest = (LATEST - EARLIEST) as u64;
    let mut lent = Lent::default();
    let count = random.pick(&[1, 1, 2, 5]);
    for _ in 0..count {
        let since = match random.below(8) {
            0 => latest + 1,
            1 => latest + (random.next() >> random.between(9, 40)),
            2 => random.pick(&[latest, 0, (1 << 56) - 1, 1 << 32, (1 << 32) - 1]),
            _ => (generate::instant(random) - EARLIEST) as u64,
        };
        lent.push(cell_of(INSTANT, since));
    }
    if random.chance(50) {
        lent.push(cell(LIST, 0, count));
    }
    lent.cell = lent.cell_count() - 1;
    lent
}

/// Cells and rows of integers, also beyond the limits.
fn integers(random: &mut Random) -> Lent {
    let mut lent = Lent::default();
    let count = random.between(1, 6) as u64;
    for _ in 0..count {
        let biased = match random.below(4) {
            0 => random.next() >> random.pick(&[0, 0, 1, 10]),
            1 => u64::MAX - random.below(3) as u64,
            _ => (generate::any_integer(random) + (1 << 53)) as u64,
        };
        lent.push(cell_of(INTEGER, biased));
        lent.push_row([4, 0, biased as u32, (biased >> 32) as u32]);
    }
    lent.push(cell(LIST, 0, count));
    lent.push(cell(ITEMS, 0, count));
    lent.cell = random.pick(&[0, count, count + 1]);
    lent
}

/// Lists of lists that refer to the same cells, of about as many values as an answer may have.
fn shared(random: &mut Random) -> Lent {
    let mut lent = Lent::default();
    let first = generate::scalar(random);
    if let Some(laid) = lay(random, &first, 0) {
        lent = laid;
    }
    let mut values = vec![1; lent.cell_count() as usize]; // at least
    loop {
        // A run of some cells that refer to runs before, or hold a scalar.
        let (start, count) = (lent.cell_count(), random.between(1, 4) as u64);
        for _ in 0..count {
            let from = random.below(start as usize);
            let run = random.between(1, 4).min(start as usize - from);
            let tag = if run == 2 && random.chance(50) { CONTEXT } else { LIST };
            values.push(1 + values[from..from + run].iter().sum::<u64>());
            lent.push(cell(tag, from as u64, run as u64));
        }
        let most = values.iter().copied().max().unwrap_or(1);
        if most > random.pick(&[20, 300, 1_000]) || lent.cell_count() > 200 {
            lent.cell = values.iter().rposition(|&value| value == most).unwrap_or(0) as u64;
            return lent;
        }
    }
}

/// Each list has two references, or three, to the one below: 2^levels values.
fn tower(random: &mut Random) -> Lent {
    let mut lent = Lent::default();
    let levels = random.pick(&[10, 11, 12, 20, 30, 31, 32, 33, 60, 100, 300]);
    let width = random.pick(&[2, 2, 3]);
    let mut below = random.pick(&[cell(LIST, 0, 0), cell(FALSE, 0, 0), cell(CONTEXT, 0, 0)]);
    if below >> 56 == FALSE {
        below = cell(LIST, lent.push(below), 1);
    }
    for _ in 0..levels {
        let first = lent.cell_count();
        for _ in 0..width {
            lent.push(below);
        }
        below = cell(if width == 2 && random.chance(30) { CONTEXT } else { LIST }, first, width);
    }
    lent.cell = lent.push(below);
    lent
}

/// A list that refers to cells at or after its own.
fn cyclic(random: &mut Random) -> Lent {
    let mut lent = Lent::default();
    let count = random.between(1, 6);
    for at in 0..count {
        let low = if random.chance(60) { at } else { random.below(count) };
        let tag = random.pick(&[LIST, LIST, CONTEXT]);
        lent.push(cell(tag, low as u64, random.between(1, 3) as u64));
    }
    lent.cell = random.below(count) as u64;
    lent
}

// ---- areas of any bytes

/// Cells whose strings, rows or cells are not there, or only in part; counts of contexts; tags that are none.
fn absent(random: &mut Random) -> Lent {
    let value = generate::record(random);
    let mut lent = lay(random, &value, 100).unwrap_or_default();
    if random.chance(5) {
        // Strings that no text has room for.
        let length = random.pick(&[MAX_TEXT_BYTES - 2, MAX_TEXT_BYTES - 1, MAX_TEXT_BYTES, MAX_TEXT_BYTES + 1, 70_000]);
        lent.rule.resize(length, random.pick(b"x\x01"));
        lent.strings.resize(length, random.pick(b"x\n"));
    }
    let edge = |random: &mut Random, end: u64| match random.below(6) {
        0 => end,
        1 => end.saturating_sub(1),
        2 => end + 1,
        3 => random.pick(&[u64::from(u32::MAX), 1 << 31, 1 << 24]),
        _ => random.below(end as usize + 1) as u64,
    };
    let count = random.pick(&[0, 1, 2, 3, 5, 40, 1_022, 1_023, 1_024, 0xff_ffff]);
    let tag =
        random.pick(&[RULE_STRING, RECORD_STRING, ITEMS, ITEMS, MEMBERS, MEMBERS, LIST, CONTEXT, CONTEXT, 11, 255]);
    let end = match tag {
        RULE_STRING => lent.rule.len() as u64,
        RECORD_STRING => lent.strings.len() as u64,
        ITEMS | MEMBERS => lent.row_count(),
        _ => lent.cell_count(),
    };
    let low = edge(random, end);
    lent.cell = lent.push(cell(tag, low, count));
    match random.below(8) {
        0 => lent.cell += random.pick(&[1, 2, 1 << 29, 1 << 32, 1 << 61, u64::MAX - lent.cell]),
        1 => lent.cell = lent.push(cell(LIST, lent.cell, random.pick(&[1, 2, 3]))),
        _ => {}
    }
    lent
}

/// Rows that nest deeper, are more, or have longer names and strings than a text may have.
fn unread(random: &mut Random) -> Lent {
    let mut lent = Lent::default();
    let (tag, kind) = random.pick(&[(ITEMS, 6), (MEMBERS, 7)]);
    let length = random.pick(&[5, 2_700, MAX_TEXT_BYTES - 1, MAX_TEXT_BYTES, MAX_TEXT_BYTES + 1, 70_000]);
    lent.strings = vec![random.pick(b"xyz\x01\n\xff"); length];
    match random.below(3) {
        0 => {
            let deep = random.between(30, 34) as u32;
            (0..deep).for_each(|at| lent.push_row([kind, 0, 1, random.pick(&[deep, at + 1, at])]));
            lent.cell = lent.push(cell(tag, 0, random.between(1, 2) as u64));
        }
        1 => {
            let many = generate::around(random, 1_023) as u64;
            (0..many).for_each(|_| lent.push_row([random.pick(&[1, 2, 3]), 0, 0, 0]));
            lent.cell = lent.push(cell(tag, 0, many));
        }
        _ => {
            let size = length as u32 - random.below(5) as u32;
            let (name, string) = random.pick(&[(size, 0), (0, size), (2, size), (size, 2), (size, u32::MAX)]);
            lent.push_row([5 + 256 * name, 0, 0, string]);
            lent.cell = lent.push(cell(tag, 0, 1));
        }
    }
    lent
}

/// Changes some bytes of what stands in the entries of an area, most often so that small numbers stay small.
fn damaged(random: &mut Random, area: fn(&mut Lent) -> &mut Vec<u8>) -> Lent {
    let make = random.pick(&[generate::ordinary as fn(&mut Random) -> Value, generate::record]);
    let mut lent = laid(random, make);
    for _ in 0..random.between(1, 4) {
        let kinds = random.between(0, 10) as u8;
        let bytes = area(&mut lent);
        if bytes.is_empty() {
            continue;
        }
        let at = random.below(bytes.len().min(800));
        match random.below(6) {
            0 => bytes[at] = random.byte(),
            1 => bytes[at] ^= 1 << random.below(8),
            2 => bytes[at] = bytes[at].wrapping_add(random.pick(&[1, 255])),
            3 => bytes[at] = random.below(20) as u8,
            4 => bytes[at / CELL_BYTES * CELL_BYTES] = kinds, // the kind of a row, the lowest byte of a cell
            _ => {
                let tag = at / CELL_BYTES * CELL_BYTES + CELL_BYTES - 1;
                if tag < bytes.len() {
                    bytes[tag] = kinds;
                }
            }
        }
    }
    lent
}

fn damaged_strings(random: &mut Random) -> Lent {
    let mut lent = laid(random, generate::ordinary);
    for area in [&mut lent.rule, &mut lent.strings] {
        for _ in 0..random.between(1, 8) {
            if !area.is_empty() {
                let at = random.below(area.len().min(400));
                area[at] = random.pick(&[0, 0x08, 0x0a, 0x1f, 0x20, b'"', b'\\', 0x7f, 0x80, 0xc3, 0xff, b'x']);
            }
        }
    }
    lent
}

/// Areas that end early.
fn short(random: &mut Random) -> Lent {
    let mut lent = laid(random, generate::ordinary);
    for area in [&mut lent.rule, &mut lent.strings, &mut lent.table, &mut lent.cells] {
        match random.below(4) {
            0 => area.truncate(random.below(area.len() + 1)),
            1 => area.truncate(area.len().saturating_sub(random.between(1, 40))),
            2 if random.chance(20) => area.clear(),
            _ => {}
        }
    }
    lent
}

/// Rows and cells of small numbers by chance.
fn noise(random: &mut Random) -> Lent {
    let mut lent = Lent::default();
    let count = random.between(1, 30);
    for _ in 0..random.below(40) {
        lent.rule.push(random.byte());
        lent.strings.push(random.byte());
    }
    let small = |random: &mut Random| random.pick(&[0, 1, 2, 3, 5, 9, 20, 40]);
    for at in 0..count {
        // Later rows and cells are referred to rarely, so that not all is a part of itself.
        let to = if random.chance(10) { random.below(count) } else { random.below(at + 1) };
        let high = small(random) as u64 % 5;
        lent.push(cell(random.below(TAGS + 1) as u64, to as u64, high));
        let next = if random.chance(80) { at + 1 } else { random.below(count) };
        let (kind, name, third) = (random.below(9), small(random), small(random));
        lent.push_row([(kind + 256 * name) as u32, small(random) as u32, third as u32, next as u32]);
    }
    if random.chance(20) {
        for area in [&mut lent.table, &mut lent.cells] {
            (0..3 * ROW_BYTES).for_each(|_| area.push(random.byte()));
        }
    }
    lent.cell = random.below(count + 1) as u64;
    lent
}
