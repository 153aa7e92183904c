//! Runs the cases on a writer and counts.

use crate::cases::{case, Case, Size, CLASSES};
use crate::compare::{Comparer, Writer};
use crate::value::{MAX_NESTING, MAX_TEXT_BYTES, MAX_VALUES, OUTPUT_TOO_SHORT, TOO_LARGE};
use crate::wrong::{Wrong, SLIPS};
use harness::lend::told;
use harness::trial::{self, Shown};
use std::time::{Duration, Instant};

/// Cases that a run has if not told otherwise.
pub const CASES: usize = 320_000;
/// Of so many, how often each outcome that a class is to have, and each feature, is met at least.
const LEAST: usize = 320;
const SHOWN: usize = 5; // differences that are printed

/// Features of cases, each to be met often.
type Feature = (&'static str, fn(&Case, &Size) -> bool);
const FEATURES: [Feature; 17] = [
    ("written: nests exactly 32 deep", |case, size| case.expected.is_ok() && size.nesting == MAX_NESTING),
    ("written: exactly 1,024 values", |case, size| case.expected.is_ok() && size.values == MAX_VALUES),
    ("written: exactly 16,384 bytes", |case, size| case.expected.is_ok() && size.bytes == MAX_TEXT_BYTES),
    ("written: as long as the output", |case, size| case.expected.is_ok() && size.bytes == case.room),
    ("written: with an instant", |case, size| case.expected.is_ok() && size.instants),
    ("written: with a context", |case, _| has(case, b"{\"current\":")),
    ("written: with a short escape", |case, _| has(case, b"\\n")),
    ("written: with a long escape", |case, _| has(case, b"\\u00")),
    ("written: with an escaped quote", |case, _| has(case, b"\\\"")),
    ("written: with a character of several bytes", |case, _| has_where(case, |text| !text.is_ascii())),
    ("11: nests 33 deep, else small", |_, size| exceeds(size) == [true, false, false] && size.nesting == 33),
    ("11: 1,025 values, else small", |_, size| exceeds(size) == [false, true, false] && size.values == 1_025),
    ("11: 16,385 bytes, else small", |_, size| exceeds(size) == [false, false, true] && size.bytes == 16_385),
    ("11: into an output that is too short as well", |case, size| refused(case, TOO_LARGE) && case.room < size.bytes),
    ("11: into an output that is long enough", |case, size| refused(case, TOO_LARGE) && case.room >= size.bytes),
    ("12: into an output of no bytes", |case, _| refused(case, OUTPUT_TOO_SHORT) && case.room == 0),
    ("12: into an output one byte too short", |case, size| {
        refused(case, OUTPUT_TOO_SHORT) && case.room + 1 == size.bytes
    }),
];

fn refused(case: &Case, refusal: u32) -> bool {
    case.expected.as_ref().err() == Some(&refusal)
}

/// Which limits a value exceeds: nesting, values, bytes.
fn exceeds(size: &Size) -> [bool; 3] {
    [size.nesting > MAX_NESTING, size.values > MAX_VALUES, size.bytes > MAX_TEXT_BYTES]
}

/// Something holds of the first bytes of the text.
fn has_where(case: &Case, holds: impl Fn(&[u8]) -> bool) -> bool {
    case.expected.as_ref().map_or(false, |text| holds(&text[..text.len().min(200)]))
}

fn has(case: &Case, piece: &[u8]) -> bool {
    has_where(case, |text| text.windows(piece.len()).any(|window| window == piece))
}

/// What came of the cases of one class.
#[derive(Clone, Copy, Default)]
struct Count {
    written: usize,
    too_large: usize,
    too_short: usize,
    differences: usize,
}

impl Count {
    fn cases(&self) -> usize {
        self.written + self.too_large + self.too_short
    }

    fn of(&mut self, expected: &Result<Vec<u8>, u32>) -> &mut usize {
        match expected {
            Ok(_) => &mut self.written,
            Err(TOO_LARGE) => &mut self.too_large,
            Err(_) => &mut self.too_short,
        }
    }

    fn met(&self, outcome: u32) -> usize {
        match outcome {
            0 => self.written,
            TOO_LARGE => self.too_large,
            _ => self.too_short,
        }
    }
}

impl Shown for Case {
    fn class(&self) -> &'static str {
        CLASSES[self.class].name
    }

    fn describe(&self) -> String {
        describe(self)
    }
}

/// A case as one can look at it.
pub fn describe(case: &Case) -> String {
    let Case { lent, room, .. } = case;
    let hex = |bytes: &[u8], width: usize| -> String {
        let groups =
            bytes.chunks(width).take(24).map(|group| group.iter().map(|byte| format!("{:02x}", byte)).collect());
        groups.collect::<Vec<String>>().join(" ") + if bytes.len() > 24 * width { " .." } else { "" }
    };
    let expected = match &case.expected {
        Ok(text) => format!("{} bytes, {}", text.len(), told(text, 0)),
        Err(refusal) => format!("refusal {}", refusal),
    };
    format!(
        "  cell {} of {}, output of {} bytes; expected {}\n  cells   {}\n  rows    {}\n  strings {}\n  rule    {}",
        lent.cell,
        lent.cell_count(),
        room,
        expected,
        hex(&lent.cells, 8),
        hex(&lent.table, 16),
        hex(&lent.strings, 16),
        hex(&lent.rule, 16)
    )
}

/// Runs the cases of these numbers; prints a few differences and what was met; gives the passed and the failed: one for
/// each class, and if `all` are wanted one for each feature.
pub fn run(writer: &mut dyn Writer, numbers: impl Iterator<Item = u64>, all: bool, say: bool) -> (usize, usize) {
    let mut comparer = Comparer::new();
    let mut counts = [Count::default(); CLASSES.len()];
    let mut features = [0; FEATURES.len()];
    let mut shown = 0;
    let mut longest = Duration::ZERO;
    for number in numbers {
        if say {
            eprintln!("--one {}", number);
        }
        let case = case(number);
        let count = &mut counts[case.class];
        *count.of(&case.expected) += 1;
        let began = Instant::now();
        let difference = comparer.compare(&case, writer);
        longest = longest.max(began.elapsed());
        if let Some(difference) = difference {
            count.differences += 1;
            shown += 1;
            if shown <= SHOWN {
                println!("DIFFERENCE in {}, --one {}: {}", CLASSES[case.class].name, number, difference);
                println!("{}", describe(&case));
            }
        }
        if let Some(size) = &case.size {
            for (met, (_, holds)) in features.iter_mut().zip(FEATURES) {
                *met += usize::from(holds(&case, size));
            }
        }
    }
    println!("the longest call took {:.1} ms", longest.as_secs_f64() * 1e3);
    report(&counts, &features, all)
}

fn report(counts: &[Count], features: &[usize], all: bool) -> (usize, usize) {
    let (mut passed, mut failed) = (0, 0);
    let mut tell = |good: bool, line: String| {
        println!("{}{}", line, if good { "" } else { "  FAILED" });
        *(if good { &mut passed } else { &mut failed }) += 1;
    };
    println!("{:>8} {:>8} {:>8} {:>8} {:>12}  class", "cases", "written", "11", "12", "differences");
    for (class, count) in CLASSES.iter().zip(counts) {
        let Count { written, too_large, too_short, differences } = *count;
        let met = class.meets.iter().all(|&outcome| count.met(outcome) >= LEAST);
        tell(
            differences == 0 && (met || !all),
            format!(
                "{:>8} {:>8} {:>8} {:>8} {:>12}  {}",
                count.cases(),
                written,
                too_large,
                too_short,
                differences,
                class.name
            ),
        );
    }
    if all {
        println!("{:>8}  feature (at least {}, as each outcome that is to be met)", "cases", LEAST);
        for ((name, _), &met) in FEATURES.iter().zip(features) {
            tell(met >= LEAST, format!("{:>8}  {}", met, name));
        }
    }
    (passed, failed)
}

/// Runs the cases on writers with a slip each; gives the passed and the failed, one for each slip.
pub fn self_test(seed: u64, cases: usize) -> (usize, usize) {
    let mut comparer = Comparer::new();
    trial::self_test(case, SLIPS, (seed, cases), &mut |case, slip| comparer.compare(case, &mut Wrong::new(slip)))
}

#[cfg(test)]
mod tests {
    use super::*;

    #[test]
    fn each_slip_is_noticed() {
        assert_eq!(self_test(20_261_116, CASES), (SLIPS.len(), 0));
    }

    #[test]
    fn shares_are_of_a_hundred() {
        assert_eq!(CLASSES.iter().map(|class| class.share).sum::<usize>(), 100);
    }
}
