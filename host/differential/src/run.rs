//! Runs tables on a viewer and counts.

use crate::tables::{at_limits, case, class_names, lent, Case, Made, LIMITS, OF_VECTORS};
use crate::view::{Comparer, Entry, Question};
use crate::wrong::{Wrong, SLIPS};
use harness::random::Random;
use harness::trial::{self, escaped, Plan, Shown};
use reader::viewer::{Untold, ROW_BYTES};
use reader::{cases, MAX_INTEGER, MAX_VALUES, STRINGS_BYTES, TABLE_BYTES};
use std::collections::{BTreeSet, HashSet};

/// Tables that a run has if not told otherwise.
pub const CASES: usize = 20_000;
/// Of so many, how often each feature is met at least.
const LEAST: usize = 60;
const SHOWN: usize = 24; // rows that are printed

// ---- what is met

/// Features of answers, each to be met often.
type Feature = (&'static str, fn(&Question, &[u64; 2]) -> bool);
const TOLD: [Feature; 23] = [
    ("null", |asked, told| is(asked, Entry::View) && told[0] == 1),
    ("false", |asked, told| is(asked, Entry::View) && told[0] == 2),
    ("true", |asked, told| is(asked, Entry::View) && told[0] == 3),
    ("an integer", |asked, _| is(asked, Entry::Integer)),
    ("the largest integer", |asked, told| is(asked, Entry::Integer) && told[0] == MAX_INTEGER),
    ("the smallest integer", |asked, told| is(asked, Entry::Integer) && told[0] == MAX_INTEGER.wrapping_neg()),
    ("a string", |asked, _| is(asked, Entry::String)),
    ("an empty string", |asked, told| is(asked, Entry::String) && told[1] == 0),
    ("a string to the end of the area", |asked, told| is(asked, Entry::String) && ends_the_area(told)),
    ("an array", |asked, told| is(asked, Entry::View) && told[0] == 6),
    ("an object", |asked, told| is(asked, Entry::View) && told[0] == 7),
    ("an empty container", |asked, told| is(asked, Entry::View) && told[0] >= 6 && told[1] == 0),
    ("a count of 200 or more", |asked, told| is(asked, Entry::View) && told[1] >= 200),
    ("a count of 1,023", |asked, told| is(asked, Entry::View) && told[1] == 1_023),
    ("a name", |asked, told| is(asked, Entry::Name) && told[1] > 0),
    ("an empty name that begins past 0", |asked, told| is(asked, Entry::Name) && told[0] > 0 && told[1] == 0),
    ("a name to the end of the area", |asked, told| is(asked, Entry::Name) && ends_the_area(told)),
    ("a name of 256 bytes or more", |asked, told| is(asked, Entry::Name) && told[1] >= 256),
    ("the first part", |asked, _| is(asked, Entry::Part) && asked.nth == 0),
    ("a later part", |asked, _| is(asked, Entry::Part) && asked.nth > 0),
    ("a part behind a container", |asked, told| is(asked, Entry::Part) && told[0] > asked.place + 1 + asked.nth),
    ("part 1,000 or later", |asked, _| is(asked, Entry::Part) && asked.nth >= 1_000),
    ("row 1,023", |asked, _| is(asked, Entry::View) && asked.place == 1_023),
];

/// Features of the lengths of tables.
type Length = (&'static str, fn(usize) -> bool);
const LENGTHS: [Length; 6] = [
    ("a table of no bytes", |length| length == 0),
    ("a table of 1 to 15 bytes", |length| (1..ROW_BYTES).contains(&length)),
    ("a table that ends within a row", |length| length > ROW_BYTES && length % ROW_BYTES > 0),
    ("a table of one row", |length| length / ROW_BYTES == 1),
    ("a table of 1,024 rows", |length| length / ROW_BYTES == MAX_VALUES),
    ("a table longer than stated", |length| length > TABLE_BYTES),
];

fn is(asked: &Question, entry: Entry) -> bool {
    asked.entry == entry
}

fn ends_the_area(told: &[u64; 2]) -> bool {
    told[0] + told[1] == STRINGS_BYTES as u64
}

fn told(name: &str) -> String {
    format!("told: {}", name)
}

fn untold(why: Untold) -> String {
    format!("refused: {:?}", why)
}

fn features() -> Vec<String> {
    let lengths = LENGTHS.iter().map(|(name, _)| name.to_string());
    let told = TOLD.iter().map(|(name, _)| told(name));
    lengths.chain(told).chain(Untold::ALL.map(untold)).collect()
}

// ---- runs

impl Shown for Case {
    fn class(&self) -> &'static str {
        self.class
    }

    /// The text, if there is one, and the rows, but for those that are like the one before.
    fn describe(&self) -> String {
        let text: String = self.read.iter().map(|(text, _)| format!("  text     {}\n", escaped(text))).collect();
        let rows: Vec<&[u8]> = self.table.chunks(ROW_BYTES).collect();
        let others = (0..rows.len()).filter(|&place| place == 0 || rows[place] != rows[place - 1]);
        let told = others.take(SHOWN).map(|place| {
            let hex = |field: &[u8]| field.iter().rev().map(|byte| format!("{:02x}", byte)).collect();
            format!("\n  row {:4} {}", place, rows[place].chunks(4).map(hex).collect::<Vec<String>>().join(" "))
        });
        format!("{}  table    {} bytes{}", text, self.table.len(), told.collect::<String>())
    }
}

impl trial::Case for Case {
    fn texts(&self) -> Vec<Vec<u8>> {
        vec![self.read.as_ref().map_or(&self.table, |(text, _)| text).clone()]
    }

    fn with(&self, mut texts: Vec<Vec<u8>>) -> Case {
        let given = texts.remove(0);
        let made = if self.read.is_some() { Made::Text(given, self.table.len()) } else { Made::Table(given) };
        Case::new(self.class, made, (self.shift, self.kept))
    }

    fn met(&self) -> Vec<String> {
        let lengths = LENGTHS.iter().filter(|(_, holds)| holds(self.table.len())).map(|(name, _)| name.to_string());
        let answers = |question: &Question| question.expected.ok().map(|told| (*question, told));
        let told_so = TOLD.iter().filter(|(_, holds)| {
            self.questions.iter().filter_map(answers).any(|(question, told)| holds(&question, &told))
        });
        let reasons: BTreeSet<Untold> = self.questions.iter().filter_map(|question| question.expected.err()).collect();
        lengths.chain(told_so.map(|(name, _)| told(name))).chain(reasons.into_iter().map(untold)).collect()
    }
}

/// The texts of `vectors/` that read, and rows at each limit.
fn stored() -> Vec<(String, Case)> {
    let mut random = Random::new(3);
    let mut seen = HashSet::new();
    let mut stored = Vec::new();
    for case in cases::all() {
        for (name, text) in case.texts {
            if reader::judge(&text).is_ok() && seen.insert(text.clone()) {
                let made = Made::Text(text, TABLE_BYTES);
                stored.push((format!("{}, {}", case.id, name), Case::new(OF_VECTORS, made, lent(&mut random))));
            }
        }
    }
    for (number, table) in at_limits().into_iter().enumerate() {
        stored.push((format!("number {}", number), Case::new(LIMITS, Made::Table(table), lent(&mut random))));
    }
    stored
}

pub fn plan() -> Plan<Case> {
    Plan { classes: class_names(), features: features(), cases: CASES, least: LEAST, case, stored }
}

/// Runs the cases on viewers with a slip each; gives the passed and the failed, one for each slip.
pub fn self_test(seed: u64, cases: usize) -> (usize, usize) {
    let mut comparer = Comparer::new();
    trial::self_test(case, SLIPS, (seed, cases), &mut |case, slip| comparer.compare(case, &mut Wrong::new(slip)))
}

#[cfg(test)]
mod tests {
    use super::*;
    use crate::tables::CLASSES;

    #[test]
    fn each_slip_is_noticed() {
        assert_eq!(self_test(20_261_115, CASES / 10), (SLIPS.len(), 0));
    }

    #[test]
    fn shares_are_of_a_hundred() {
        assert_eq!(CLASSES.iter().map(|class| class.share).sum::<usize>(), 100);
    }
}
