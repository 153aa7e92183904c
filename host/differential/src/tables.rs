//! Tables in classes: such as a text leaves, damaged ones, ones of other lengths, and ones made row by row.

use crate::generate;
use crate::random::Random;
use crate::view::{questions, Question};
use harness::classes;
use harness::classes::class_at;
use reader::viewer::ROW_BYTES;
use reader::{judge, Form, MAX_VALUES, STRINGS_BYTES, TABLE_BYTES};

classes! {
    Made;
    "tables of texts", 25, |random| Made::Text(text(random).0, read_length(random));
    "damaged tables", 40, |random| Made::Table(damaged(random));
    "tables of other lengths", 15, |random| Made::Table(of_other_length(random));
    "tables made row by row", 20, |random| Made::Table(made(random));
}

/// The classes of stored cases.
pub const OF_VECTORS: &str = "tables of texts of vectors/";
pub const LIMITS: &str = "rows at each limit";

/// The names of all classes.
pub fn class_names() -> Vec<&'static str> {
    CLASSES.iter().map(|class| class.name).chain([OF_VECTORS, LIMITS]).collect()
}

/// What a case is made of.
pub enum Made {
    /// A text, and the length of the table that it is read into.
    Text(Vec<u8>, usize),
    Table(Vec<u8>),
}

pub struct Case {
    pub class: &'static str,
    /// The text that was read and its form, unless the table is another.
    pub read: Option<(Vec<u8>, Form)>,
    pub table: Vec<u8>,
    pub questions: Vec<Question>,
    /// Where the table begins, and what the numbers are before a call.
    pub shift: usize,
    pub kept: u64,
}

impl Case {
    /// A case of a table; of a text that does not read, nothing is asked.
    pub fn new(class: &'static str, made: Made, (shift, kept): (usize, u64)) -> Case {
        let (read, table) = match made {
            Made::Table(table) => (None, table),
            Made::Text(text, length) => match judge(&text) {
                Ok(form) => {
                    let table = padded(&form, length);
                    (Some((text, form)), table)
                }
                Err(_) => return Case { class, read: None, table: Vec::new(), questions: Vec::new(), shift, kept },
            },
        };
        Case { class, read, questions: questions(&table), table, shift, kept }
    }
}

/// The case of a number.
pub fn case(number: u64) -> Case {
    let mut random = Random::new(number);
    let class = &CLASSES[class_at(CLASSES, random.below(100))];
    let made = (class.make)(&mut random);
    Case::new(class.name, made, lent(&mut random))
}

/// Where a table begins, past a multiple of 16, and what the numbers are before a call.
pub fn lent(random: &mut Random) -> (usize, u64) {
    (random.below(16), random.next())
}

// ---- tables of texts

/// A random text that reads, and its form.
fn text(random: &mut Random) -> (Vec<u8>, Form) {
    loop {
        let text = generate::text(random);
        if let Ok(form) = judge(&text) {
            return (text, form);
        }
    }
}

fn read_length(random: &mut Random) -> usize {
    match random.below(5) {
        0 => TABLE_BYTES + random.below(4_096),
        _ => TABLE_BYTES,
    }
}

/// The table of this length that a text leaves.
fn padded(form: &Form, length: usize) -> Vec<u8> {
    let mut table = form.row_bytes();
    table.resize(length, 0);
    table
}

/// A table that a text left, most often no longer than its rows or a little more.
fn read_table(random: &mut Random) -> Vec<u8> {
    let form = text(random).1;
    let rows = form.rows.len() * ROW_BYTES;
    let length = match random.below(12) {
        0 => TABLE_BYTES,
        1..=4 => rows + random.below(4 * ROW_BYTES),
        _ => rows,
    };
    padded(&form, length)
}

// ---- damage

/// Numbers at or near an edge of something.
fn edge(random: &mut Random, place: usize, rows: usize) -> u32 {
    let near = |random: &mut Random, number: usize| (number + random.below(5)).saturating_sub(2) as u32;
    match random.below(12) {
        0 => 0,
        1..=2 => random.below(10) as u32,
        3..=4 => near(random, place + 1),
        5..=6 => near(random, rows),
        7 => near(random, rows.saturating_sub(place + 1)),
        8 => near(random, STRINGS_BYTES),
        9 => near(random, MAX_VALUES),
        10 => (1_u32 << random.below(32)).wrapping_sub(random.below(2) as u32),
        _ => random.next() as u32 >> random.below(32),
    }
}

/// A table that a text left, damaged in one to four places.
fn damaged(random: &mut Random) -> Vec<u8> {
    let mut table = read_table(random);
    for _ in 0..random.pick(&[1, 1, 1, 2, 3, 4]) {
        damage_once(random, &mut table);
    }
    table
}

fn damage_once(random: &mut Random, table: &mut [u8]) {
    let rows = table.len() / ROW_BYTES;
    // What a text has there is found near the front.
    let place = if random.chance(50) { random.below(rows.min(8)) } else { random.below(rows) };
    let other = random.below(rows);
    let at = place * ROW_BYTES;
    match random.below(12) {
        0..=1 => table[at + random.below(ROW_BYTES)] ^= 1 << random.below(8),
        2 => table[at] = random.pick(&[0, 1, 2, 3, 4, 5, 6, 7, 8, 9, 128, 134, 255]),
        3 => put_edge(random, table, place, 1),
        4..=5 => put_edge(random, table, place, 2),
        6..=7 => put_edge(random, table, place, 3),
        8 => table.copy_within(other * ROW_BYTES..(other + 1) * ROW_BYTES, at),
        9 => put(table, place, row(random, place, rows)),
        10 => table[at..at + ROW_BYTES].fill(0),
        _ => {
            let field = random.pick(&[2, 3]);
            let number = field_of(table, place, field);
            let changed = number.wrapping_add(random.pick(&[1, 1, 2, 0_u32.wrapping_sub(1), 0_u32.wrapping_sub(2)]));
            put_field(table, place, field, changed);
        }
    }
}

fn put_edge(random: &mut Random, table: &mut [u8], place: usize, field: usize) {
    let rows = table.len() / ROW_BYTES;
    let number = edge(random, place, rows);
    put_field(table, place, field, number);
}

fn field_at(place: usize, field: usize) -> std::ops::Range<usize> {
    let at = place * ROW_BYTES + 4 * field;
    at..at + 4
}

fn field_of(table: &[u8], place: usize, field: usize) -> u32 {
    u32::from_le_bytes(table[field_at(place, field)].try_into().unwrap())
}

fn put_field(table: &mut [u8], place: usize, field: usize, number: u32) {
    table[field_at(place, field)].copy_from_slice(&number.to_le_bytes());
}

fn put(table: &mut [u8], place: usize, row: [u32; 4]) {
    row.iter().enumerate().for_each(|(field, &number)| put_field(table, place, field, number));
}

// ---- other lengths

const NULL: [u32; 4] = [1, 0, 0, 0];

/// A table that is cut, or extended by rows that nobody wrote, or that has more than 1,024 rows.
fn of_other_length(random: &mut Random) -> Vec<u8> {
    if random.chance(30) {
        return around_1024(random);
    }
    let mut table = if random.chance(50) { padded(&text(random).1, TABLE_BYTES) } else { made(random) };
    let rows = table.len() / ROW_BYTES;
    let length = match random.below(8) {
        0 => random.pick(&[0, 0, 1, 15, 16, 17, 31, 32, 33]),
        1..=3 => random.between(0, rows) * ROW_BYTES + random.pick(&[0, 0, 1, 7, 8, 12, 15]),
        4..=5 => random.below(table.len().min(200) + 1),
        6 => random.below(table.len() + 1),
        _ => table.len() + random.below(8 * ROW_BYTES),
    };
    let filler = random.pick(&[0, 1, 255]);
    table.resize(length, filler);
    table
}

/// About 1,024 rows and more, with a container that ends about there.
fn around_1024(random: &mut Random) -> Vec<u8> {
    let rows = random.pick(&[1_020, 1_023, 1_024, 1_024, 1_025, 1_030, 1_792, 1_793]);
    let mut table = vec![0; rows * ROW_BYTES + random.pick(&[0, 0, 1, 15])];
    (0..rows).for_each(|place| put(&mut table, place, NULL));
    let place = random.pick(&[0, 0, 0, 1, 1_000, 1_019]);
    let end = random.pick(&[1_020, 1_023, 1_024, 1_024, 1_024, 1_025, 1_026]);
    let between = end - place as u32 - 1;
    let count = random.pick(&[between, between, between, between + 1, between.saturating_sub(1), 1]);
    put(&mut table, place, [random.pick(&[6, 7]), 0, count, end]);
    for _ in 0..random.below(3) {
        let place = random.between(1_015, rows - 1);
        let row = row(random, place, rows);
        put(&mut table, place, row);
    }
    table
}

// ---- rows

/// A few rows, most of which have the form.
fn made(random: &mut Random) -> Vec<u8> {
    let rows = random.pick(&[1, 2, 3, 4, 5, 6, 8, 12, 24]);
    let mut table = vec![0; rows * ROW_BYTES];
    for place in 0..rows {
        let row = row(random, place, rows);
        put(&mut table, place, row);
    }
    table
}

/// A row for a place of so many rows.
fn row(random: &mut Random, place: usize, rows: usize) -> [u32; 4] {
    let [start, length] = if random.chance(75) { [0, 0] } else { span(random) };
    let (kind, [third, fourth]) = match random.below(20) {
        0..=4 => (random.between(1, 3) as u32, word(random)),
        5..=6 => (4, integer(random)),
        7..=8 => (5, span(random)),
        9..=18 => (random.pick(&[6, 7]), container(random, place, rows)),
        _ => (random.pick(&[0, 8, 9, 64, 128, 135, 255]), [0, 0]),
    };
    [kind | length << 8, start, third, fourth]
}

fn word(random: &mut Random) -> [u32; 2] {
    match random.below(24) {
        0 => [random.pick(&[1, 256, u32::MAX]), 0],
        1 => [0, random.pick(&[1, 256, u32::MAX])],
        2 => [1, u32::MAX],
        _ => [0, 0],
    }
}

/// The halves of a number near a limit of integers, or of any.
fn integer(random: &mut Random) -> [u32; 2] {
    let near = random.below(3) as u64;
    let number = match random.below(8) {
        0 => near,
        1..=2 => (1 << 54) - 1 - near,
        3 => (1 << 54) + near,
        4 => (1 << 53) + 1 - near,
        5 => random.next() >> 10,
        6 => u64::from(u32::MAX) + near,
        _ => random.next(),
    };
    [number as u32, (number >> 32) as u32]
}

/// A start and a length, most often within a strings area, and often at its end.
fn span(random: &mut Random) -> [u32; 2] {
    let all = STRINGS_BYTES as u32;
    let start = random.pick(&[0, 0, 1, 5, all / 2, all - 1, all, all + 1, 1 << 31, u32::MAX]);
    let rest = all.saturating_sub(start);
    let length = match random.below(8) {
        0..=1 => 0,
        2..=3 => rest,
        4 => rest + 1,
        5 => rest.saturating_sub(1),
        6 => random.below(300) as u32,
        _ => random.pick(&[255, 256, 65_535, 65_536, 0xff_ffff]),
    };
    [start, length]
}

/// A count and an end, most often such as a container there may have.
fn container(random: &mut Random, place: usize, rows: usize) -> [u32; 2] {
    let first = place + 1;
    if random.chance(10) {
        return [edge(random, place, rows), edge(random, place, rows)];
    }
    let end = if first >= rows || random.chance(20) { first } else { random.between(first, rows) };
    let between = (end - first) as u32;
    let count = match random.below(8) {
        0 if between > 0 => 0,
        1 => between + 1,
        2..=4 => between,
        _ => between - between.min(random.below(4) as u32),
    };
    [if count == 0 && random.chance(80) { between.min(1) } else { count }, end as u32]
}

/// Tables of three rows with one of many rows at a limit in their middle.
pub fn at_limits() -> Vec<Vec<u8>> {
    let all = STRINGS_BYTES as u32;
    let numbers = [0, 1, 2, 3, 4, all - 1, all, all + 1, 1 << 21, (1 << 22) - 1, 1 << 22, u32::MAX];
    let names = [[0, 0], [0, all], [all, 0], [1, all], [all + 1, 0], [u32::MAX, 1]];
    let mut tables = Vec::new();
    for kind in (0..=9).chain([255]) {
        for (third, fourth) in numbers.iter().flat_map(|&third| numbers.map(|fourth| (third, fourth))) {
            for [start, length] in names {
                let rows = [[6, 0, 2, 3], [kind | length << 8, start, third, fourth], NULL];
                tables.push(rows.iter().flatten().flat_map(|field| field.to_le_bytes()).collect());
            }
        }
    }
    tables
}
