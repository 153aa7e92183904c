//! Asks a viewer about every place of a table, and holds answers and numbers to the independent viewer.

use crate::tables::Case;
use crate::walk;
use reader::viewer::{Span, Untold, Viewer as Independent};
use reader::STRINGS_BYTES;

const GUARD: usize = 64; // bytes before and behind the table
const BEYOND: u64 = 2; // places and numbers past the last that are asked for

/// Places and numbers that no table has; some of them times 16 are small in 32 or 64 bits.
#[rustfmt::skip]
const FAR: [u64; 10] = [
    1_027, 1 << 28, (1 << 28) + 1, u32::MAX as u64, 1 << 32, (1 << 32) + 1, 1 << 60, (1 << 60) + 1, i64::MAX as u64,
    u64::MAX,
];

/// The entries of the viewer.
#[derive(Clone, Copy, Debug, PartialEq, Eq)]
pub enum Entry {
    View,
    Part,
    Integer,
    String,
    Name,
}

impl Entry {
    /// What its numbers are called.
    fn numbers(self) -> &'static [&'static str] {
        match self {
            Entry::View => &["kind", "count"],
            Entry::Part => &["part"],
            Entry::Integer => &["value"],
            Entry::String | Entry::Name => &["start", "length"],
        }
    }
}

pub const DONE: u32 = 0;
pub const REFUSED: u32 = 1;

/// What the C entries do.
pub trait Viewer {
    /// Reads a text, as `jehvrukam_read` does.
    fn read(&mut self, text: &[u8], table: &mut [u8], strings: &mut [u8]) -> u32 {
        reader::read(text, table, strings, &mut 0)
    }

    /// Tells one or two numbers of a place, an integer by its 64 bits.
    fn ask(&mut self, entry: Entry, table: &[u8], place: u64, nth: u64, numbers: [&mut u64; 2]) -> u32;
}

/// What is asked, and what the independent viewer tells; of one number the second stays as it was.
#[derive(Clone, Copy, Debug)]
pub struct Question {
    pub entry: Entry,
    pub place: u64,
    pub nth: u64,
    pub expected: Result<[u64; 2], Untold>,
}

/// Every entry at every place of a table and a few more, and every part of each value and a few more.
pub fn questions(table: &[u8]) -> Vec<Question> {
    let viewer = Independent::of(table);
    let mut asked = Vec::new();
    for place in (0..=viewer.rows() + BEYOND).chain(FAR) {
        let span = |told: Result<Span, Untold>| told.map(|span| [span.start, span.length]);
        let mut ask = |entry, nth, expected| asked.push(Question { entry, place, nth, expected });
        ask(Entry::View, 0, viewer.value(place).map(|(kind, count)| [kind, count]));
        ask(Entry::Integer, 0, viewer.integer(place).map(|integer| [integer as u64, 0]));
        ask(Entry::String, 0, span(viewer.string(place)));
        ask(Entry::Name, 0, span(viewer.name(place)));
        let parts = viewer.parts(place);
        let count = parts.as_ref().map_or(0, |parts| parts.count);
        for nth in (0..=count + BEYOND).chain(FAR.into_iter().filter(|_| count > 0)) {
            let part = parts.as_ref().map_err(|&why| why).and_then(|parts| parts.nth(nth));
            ask(Entry::Part, nth, part.map(|part| [part, 0]));
        }
    }
    asked
}

/// A table with bytes around it, and a strings area.
pub struct Comparer {
    area: Vec<u8>,
    strings: Vec<u8>,
    /// How many answers were compared.
    pub answers: usize,
}

impl Comparer {
    pub fn new() -> Comparer {
        Comparer { area: Vec::new(), strings: vec![0; STRINGS_BYTES], answers: 0 }
    }

    /// Calls a viewer on a case; says what differs, if anything does.
    pub fn compare(&mut self, case: &Case, viewer: &mut dyn Viewer) -> Option<String> {
        let (begin, end) = self.lend(case);
        if let Some((text, _)) = &case.read {
            let refusal = viewer.read(text, &mut self.area[begin..end], &mut self.strings);
            if refusal != DONE || self.area[begin..end] != case.table[..] {
                return Some(format!("the text is read otherwise, with refusal {}", refusal));
            }
        }
        let table = &self.area[begin..end];
        self.answers += case.questions.len();
        let differs = |question: &Question| ask(viewer, table, question, case.kept);
        if let Some(difference) = case.questions.iter().find_map(differs) {
            return Some(difference);
        }
        if let Some((_, form)) = &case.read {
            if !walk::shows(viewer, table, &self.strings, form) {
                return Some("a walk from place 0 sees another value".to_string());
            }
        }
        let kept = *table == case.table[..] && self.area[..begin].iter().all(|&byte| byte == NOISE);
        let behind = self.area[end..].iter().zip(behind(case.table.len())).all(|(&byte, wanted)| byte == wanted);
        Some("more than the numbers was touched".to_string()).filter(|_| !(kept && behind))
    }

    /// Lends the table of a case; gives where it begins and ends.
    fn lend(&mut self, case: &Case) -> (usize, usize) {
        let begin = GUARD + case.shift;
        self.area.clear();
        self.area.resize(begin, NOISE);
        self.area.extend_from_slice(&case.table);
        self.area.extend(behind(case.table.len()).take(GUARD));
        if case.read.is_some() {
            self.area[begin..begin + case.table.len()].fill(NOISE);
        }
        (begin, begin + case.table.len())
    }
}

impl Default for Comparer {
    fn default() -> Comparer {
        Comparer::new()
    }
}

const NOISE: u8 = 0x5a;

/// What stands behind a table of this length, and would go on with it: rows of null.
fn behind(length: usize) -> impl Iterator<Item = u8> {
    (length..).map(|at| u8::from(at % 16 == 0))
}

/// Asks one question; says what differs, if anything does.
fn ask(viewer: &mut dyn Viewer, table: &[u8], question: &Question, kept: u64) -> Option<String> {
    let Question { entry, place, nth, expected } = *question;
    let mut numbers = [kept; 5]; // each between two that nothing may touch
    let [_, first, _, second, _] = &mut numbers;
    let refusal = viewer.ask(entry, table, place, nth, [first, second]);
    let mut wanted = [kept; 5];
    for (at, told) in expected.into_iter().flat_map(|told| told.into_iter().take(entry.numbers().len()).enumerate()) {
        wanted[2 * at + 1] = told;
    }
    let wanted_refusal = if expected.is_ok() { DONE } else { REFUSED };
    if (refusal, numbers) == (wanted_refusal, wanted) {
        return None;
    }
    let tell = |refusal: u32, numbers: &[u64; 5]| {
        let told = entry.numbers().iter().enumerate().map(|(at, name)| format!(" {} {}", name, numbers[2 * at + 1]));
        format!("refusal {}{}", refusal, told.collect::<String>())
    };
    let asked = format!("{:?} of place {} (nth {})", entry, place, nth);
    let (given, wanted) = (tell(refusal, &numbers), tell(wanted_refusal, &wanted));
    Some(format!("{}: {}, expected {}, {:?}", asked, given, wanted, expected.err()))
}
