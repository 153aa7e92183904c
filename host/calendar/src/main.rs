//! The proved calendar, through its C entries, against an independent one (`dates`).
//!
//!     calendar [--seed N] [--count N]   so many random texts, and as many random shifts and instants, from this seed
//!
//! Every day of the years 0000 to 9999 is read and written; every date, time and offset of some forms is read; a sample
//! is read with each byte at each place; then come random texts, shifts and instants. A difference is printed with its
//! input. It counts how often each class of random input was met; a class that was met too rarely fails. The last line
//! is 'N passed, M failed': one for each group of inputs and one for each class.

mod dates;
mod generate;
mod library;

use dates::{Refusal, Unit, EARLIEST, LATEST};
use harness::random::{self, Random};
use harness::report::{report, Group};
use library::Library;
use std::collections::BTreeMap;
use std::process::exit;
use std::time::Instant;

const COUNT: usize = 1_000_000; // random texts, and shifts, and instants
const LEAST: usize = 1_000; // of each class, among so many
const SHOWN: usize = 5; // differences that are printed
const MS_PER_DAY: i64 = 86_400_000;
const UNITS: [(Unit, &str); 4] =
    [(Unit::Year, "year"), (Unit::Month, "month"), (Unit::Day, "day"), (Unit::Hour, "hour")];

struct Run {
    library: Library,
    /// What was tried; the last one is the current one.
    groups: Vec<Group>,
    /// How often each class of random inputs was met.
    classes: BTreeMap<String, usize>,
    differences: usize,
}

/// What an entry answers: the number, and the milliseconds or 0.
type Answer = (u32, i64);

fn answer(result: Result<i64, Refusal>) -> Answer {
    match result {
        Ok(ms) => (0, ms),
        Err(refusal) => (refusal.number(), 0),
    }
}

impl Run {
    fn begin(&mut self, name: &str) {
        self.groups.push(Group { name: name.to_string(), inputs: 0, differences: 0 });
    }

    fn met(&mut self, class: &str) {
        match self.classes.get_mut(class) {
            Some(met) => *met += 1,
            None => drop(self.classes.insert(class.to_string(), 1)),
        }
    }

    /// Counts one check of the current group; prints a difference.
    fn count<T: PartialEq + std::fmt::Debug>(&mut self, given: T, expected: T, input: &dyn Fn() -> String) {
        let group = self.groups.last_mut().unwrap();
        group.inputs += 1;
        if given != expected {
            group.differences += 1;
            self.differences += 1;
            if self.differences <= SHOWN {
                println!("DIFFERENCE in {}: {} gives {:?}, expected {:?}", group.name, input(), given, expected);
            }
        }
    }

    /// Reads a text as a date. This and the following give what is expected.
    fn try_date(&mut self, text: &[u8]) -> Answer {
        let expected = answer(dates::read_date(text));
        let given = self.library.read_date(text);
        self.count(given, Some(expected), &|| format!("the date {}", escaped(text)));
        expected
    }

    /// As a date and as a day.
    fn try_text(&mut self, text: &[u8]) -> [Answer; 2] {
        let expected = answer(dates::read_day(text));
        let given = self.library.read_day(text);
        self.count(given, Some(expected), &|| format!("the day {}", escaped(text)));
        [self.try_date(text), expected]
    }

    /// Shifts by a unit, or by a number that is none.
    fn try_shift(&mut self, from: i64, amount: i64, unit: u32) -> Answer {
        let shifted = UNITS.get(unit as usize).map(|&(unit, _)| dates::shift(from, amount, unit));
        let expected = shifted.map_or((1, 0), answer);
        let given = self.library.shift(from, amount, unit);
        self.count(given, Some(expected), &|| format!("{} shifted by {} of unit {}", from, amount, unit));
        expected
    }

    /// Writes an instant into an area of a length; the number alone is given.
    fn try_instant(&mut self, ms: i64, length: usize) -> u32 {
        let expected = if length == 24 { dates::text(ms).map_err(Refusal::number) } else { Err(1) };
        let given = self.library.text(ms, length);
        let input = || format!("the text of {} into {} bytes", ms, length);
        match (given, expected) {
            (None, _) => self.count("more than the area was touched", "", &input),
            (Some((number, _, after)), Ok(text)) => self.count((number, &after[..]), (0, &text[..]), &input),
            (Some((number, before, after)), Err(refusal)) => self.count((number, after), (refusal, before), &input),
        }
        expected.err().unwrap_or(0)
    }
}

/// A text in printable ASCII.
fn escaped(text: &[u8]) -> String {
    format!(
        "b\"{}\"",
        text.iter().flat_map(|&byte| std::ascii::escape_default(byte)).map(char::from).collect::<String>()
    )
}

// ---- the groups

/// What the documents say, in numbers from neither implementation but of Python's calendar.
fn try_examples(run: &mut Run) {
    run.begin("examples with known answers");
    let texts = [
        ("1970-01-01", Ok(0)),
        ("0000-01-01", Ok(EARLIEST)),
        ("9999-12-31T23:59:59.999", Ok(LATEST)),
        ("2020-03-02", Ok(1_583_107_200_000)),
        ("2020", Ok(1_609_372_800_000)),
        ("2020-02", Ok(1_582_934_400_000)),
        ("2020-01-31T10:20:30.123456789+05:30", Ok(1_580_446_230_123)),
        ("1969-12-31T23:59:59.9-0", Ok(-100)),
        ("1900-02-29", Err(Refusal::NoDate)),
        ("2000-02-30", Err(Refusal::NoDate)),
        ("2020-01-31T24:00:00", Err(Refusal::NoDate)),
        ("2020-01-31T10:20:30.1234567890Z", Err(Refusal::NoDate)),
        ("0000-01-01T00:00:00+00:01", Err(Refusal::OutOfRange)),
        ("9999-12-31T23:59:59-1", Err(Refusal::OutOfRange)),
    ];
    for (text, expected) in texts {
        let given = run.try_date(text.as_bytes());
        run.count(given, answer(expected), &|| format!("the independent reading of {}", text));
    }
    // 001, "Leap days", and 01, "Both sides of the line".
    let leap_day = 1_582_934_400_000;
    let shifts = [
        (leap_day, 1, 2, Ok(leap_day + MS_PER_DAY)),
        (leap_day, 1, 1, Ok(leap_day + 29 * MS_PER_DAY)),
        (leap_day, 1, 0, Ok(leap_day + 366 * MS_PER_DAY)),
        (leap_day - 29 * MS_PER_DAY, 1, 1, Ok(leap_day + 2 * MS_PER_DAY)),
        (LATEST, 1, 3, Err(Refusal::OutOfRange)),
        (LATEST, i64::MAX, 0, Err(Refusal::OutOfRange)),
        (EARLIEST, i64::MIN, 1, Err(Refusal::OutOfRange)),
    ];
    for (from, amount, unit, expected) in shifts {
        let given = run.try_shift(from, amount, unit);
        run.count(given, answer(expected), &|| format!("the independent shift of {}", from));
    }
    run.try_instant(1_583_107_200_000, 24);
    run.count(dates::text(1_583_107_200_000), Ok(*b"2020-03-02T00:00:00.000Z"), &|| "the independent text".to_string());
}

/// Each day of the range, counted on from the first: its text is read, and an instant of it is written.
fn try_days(run: &mut Run) {
    let mut random = Random::new(1);
    run.begin("every day of the years 0000 to 9999, read");
    let (mut ms, mut date) = (EARLIEST, (0, 1, 1));
    let mut texts = Vec::new();
    while ms <= LATEST {
        let (year, month, day) = date;
        let text = format!("{:04}-{:02}-{:02}", year, month, day).into_bytes();
        let given = run.try_text(&text);
        run.count(given, [(0, ms); 2], &|| format!("the count of days to {}", escaped(&text)));
        texts.push(text);
        ms += MS_PER_DAY;
        let leap = year % 4 == 0 && (year % 100 != 0 || year % 400 == 0);
        let last = match month {
            2 => 28 + i32::from(leap),
            4 | 6 | 9 | 11 => 30,
            _ => 31,
        };
        date = match (month, day) {
            (12, 31) => (year + 1, 1, 1),
            _ if day == last => (year, month + 1, 1),
            _ => (year, month, day + 1),
        };
    }
    run.begin("a random instant of each of these days, written");
    for (days, text) in texts.iter().enumerate() {
        let ms = EARLIEST + days as i64 * MS_PER_DAY + random.below(MS_PER_DAY as usize) as i64;
        run.try_instant(ms, 24);
        let written = dates::text(ms);
        run.count(written.map(|text| text[..10].to_vec()), Ok(text.clone()), &|| format!("the day of {}", ms));
    }
}

fn try_parts(run: &mut Run) {
    run.begin("every YYYY and YYYY-MM");
    for year in 0..10_000 {
        run.try_text(format!("{:04}", year).as_bytes());
        for month in 0..100 {
            run.try_text(format!("{:04}-{:02}", year, month).as_bytes());
        }
    }
    run.begin("every month and day, 00 to 99, of some years");
    for year in [0, 1, 4, 100, 400, 1900, 1970, 2000, 2019, 2020, 2100, 9996, 9999] {
        for month_day in 0..10_000 {
            run.try_text(format!("{:04}-{:02}-{:02}", year, month_day / 100, month_day % 100).as_bytes());
        }
    }
    run.begin("every hour, minute and second, 00 to 99");
    for time in 0..1_000_000 {
        let (hour, minute, second) = (time / 10_000, time / 100 % 100, time % 100);
        run.try_date(format!("2020-01-31T{:02}:{:02}:{:02}", hour, minute, second).as_bytes());
    }
    run.begin("every offset of each form, at both ends of the range");
    for start in ["0000-01-01T00:00:00", "0000-01-01T23:59:59.9", "9999-12-31T00:00:00.12", "9999-12-31T23:59:59.999"] {
        for sign in ['+', '-'] {
            for h in 0..10 {
                run.try_date(format!("{}{}{}", start, sign, h).as_bytes());
                for mm in 0..100 {
                    run.try_date(format!("{}{}{}{:02}", start, sign, h, mm).as_bytes());
                    run.try_date(format!("{}{}{}:{:02}", start, sign, h, mm).as_bytes());
                }
            }
            for hh in 0..100 {
                run.try_date(format!("{}{}{:02}", start, sign, hh).as_bytes());
                for mm in 0..100 {
                    run.try_date(format!("{}{}{:02}{:02}", start, sign, hh, mm).as_bytes());
                    run.try_date(format!("{}{}{:02}:{:02}", start, sign, hh, mm).as_bytes());
                }
            }
        }
    }
}

/// A byte more, a byte less, another byte, and no more bytes, at each place.
fn try_bytes(run: &mut Run) {
    run.begin("some texts with each byte at each place");
    let samples = [
        "2020",
        "2020-02",
        "2020-02-29",
        "2020-02-29T23:59:59",
        "2020-02-29T10:20:30.123456789Z",
        "0400-02-29T23:59:59.9+1",
        "2020-02-29T10:20:30-11",
        "2020-02-29T10:20:30+123",
        "2020-02-29T10:20:30.12-1234",
        "2020-02-29T10:20:30+1:23",
        "2020-02-29T10:20:30.123-12:34",
    ];
    for sample in samples {
        let sample = sample.as_bytes();
        for at in 0..=sample.len() {
            run.try_text(&sample[..at]);
            run.try_text(&sample[at..]);
            for byte in 0..=255 {
                let mut text = sample.to_vec();
                text.insert(at, byte);
                run.try_text(&text);
                if at < sample.len() {
                    text.remove(at + 1);
                    run.try_text(&text);
                }
            }
        }
    }
}

fn try_random_texts(run: &mut Run, random: &mut Random, count: usize) {
    run.begin("random texts");
    for _ in 0..count {
        let text = generate::text(random);
        let [date, day] = run.try_text(&text);
        match date.0 {
            0 => run.met(&format!("text: a date, {}", form(&text))),
            9 => run.met(if text[0] == b'0' { "text: 9, too early" } else { "text: 9, too late" }),
            _ => run.met("text: 8"),
        }
        if day.0 == 0 {
            run.met("text: a day");
        }
    }
}

/// The form of a text that was read, a 0 for each digit of its offset.
fn form(text: &[u8]) -> String {
    if text.len() <= 10 {
        return format!("of {} bytes", text.len());
    }
    let fraction = if text.get(19) == Some(&b'.') { "fraction" } else { "whole seconds" };
    let after = &text[19..];
    let offset = after.iter().position(|byte| b"Z+-".contains(byte)).map_or(&b""[..], |at| &after[at..]);
    let shape: String = offset.iter().map(|&byte| if byte.is_ascii_digit() { '0' } else { byte.into() }).collect();
    format!("{}, offset '{}'", fraction, shape)
}

fn try_random_shifts(run: &mut Run, random: &mut Random, count: usize) {
    run.begin("random shifts");
    for number in 0..count {
        let unit = if random.chance(2) { random.pick(&[4, 5, 256, 1 << 31, u32::MAX]) } else { number as u32 % 4 };
        let from = generate::instant(random);
        let amount = generate::amount(random, from, unit);
        let (refusal, to) = run.try_shift(from, amount, unit);
        let name = UNITS.get(unit as usize).map_or("", |(_, name)| name);
        match refusal {
            1 => run.met("shift: no unit"),
            0 => {
                run.met(&format!("shift: {}s {}", name, if to < from { "back" } else { "on" }));
                let day = |ms: i64| dates::date_of(ms.div_euclid(MS_PER_DAY).into()).2;
                if unit < 2 && day(from) != day(to) {
                    run.met(&format!("shift: {}s, the day runs on", name));
                }
            }
            _ if !(EARLIEST..=LATEST).contains(&from) => run.met(&format!("shift: {}s, from outside", name)),
            _ => run.met(&format!("shift: {}s {} out of the range", name, if amount < 0 { "back" } else { "on" })),
        }
    }
}

fn try_random_instants(run: &mut Run, random: &mut Random, count: usize) {
    run.begin("random instants, written");
    for _ in 0..count {
        let length = if random.chance(10) { random.pick(&[0, 1, 23, 25, 48, 96]) } else { 24 };
        let ms = generate::instant(random);
        let number = run.try_instant(ms, length);
        run.met(
            ["instant: written", "instant: an area of another length", "instant: outside"][(number as usize).min(2)],
        );
    }
}

/// All classes that are to be met.
fn classes() -> Vec<String> {
    let mut all: Vec<String> =
        ["4", "7", "10"].iter().map(|bytes| format!("text: a date, of {} bytes", bytes)).collect();
    for seconds in ["fraction", "whole seconds"] {
        all.extend(["", "Z"].iter().map(|offset| format!("text: a date, {}, offset '{}'", seconds, offset)));
        for digits in ["0", "00", "000", "0000", "0:00", "00:00"] {
            all.extend(["+", "-"].iter().map(|sign| format!("text: a date, {}, offset '{}{}'", seconds, sign, digits)));
        }
    }
    for (_, unit) in UNITS {
        all.extend(["s on", "s back", "s, from outside"].iter().map(|what| format!("shift: {}{}", unit, what)));
        all.extend(
            ["s on out of the range", "s back out of the range"].iter().map(|what| format!("shift: {}{}", unit, what)),
        );
    }
    let others = [
        "text: 8",
        "text: 9, too early",
        "text: 9, too late",
        "text: a day",
        "shift: no unit",
        "shift: years, the day runs on",
        "shift: months, the day runs on",
        "instant: written",
        "instant: an area of another length",
        "instant: outside",
    ];
    all.extend(others.iter().map(|name| name.to_string()));
    all.sort();
    all
}

fn main() {
    let (mut seed, mut count) = (20_261_115, COUNT);
    let mut words = std::env::args().skip(1);
    while let Some(word) = words.next() {
        let number = words.next().and_then(|number| number.parse().ok());
        match (word.as_str(), number) {
            ("--seed", Some(number)) => seed = number,
            ("--count", Some(number)) => count = number as usize,
            _ => {
                eprintln!("usage: calendar [--seed N] [--count N]");
                exit(2);
            }
        }
    }
    let began = Instant::now();
    let mut run = Run { library: Library::new(), groups: Vec::new(), classes: BTreeMap::new(), differences: 0 };
    try_examples(&mut run);
    try_days(&mut run);
    try_parts(&mut run);
    try_bytes(&mut run);
    let mut random = Random::new(seed);
    try_random_texts(&mut run, &mut random, count);
    try_random_shifts(&mut run, &mut random, count);
    try_random_instants(&mut run, &mut random, count);
    let (passed, failed) = report(&run.groups, &run.classes, &classes(), Some(LEAST).filter(|_| count >= COUNT));
    let checks: usize = run.groups.iter().map(|group| group.inputs).sum();
    println!("{} checks, seed {}, {:.1} s", checks, seed, began.elapsed().as_secs_f64());
    println!("{} passed, {} failed", passed, failed);
    exit(i32::from(failed > 0));
}
