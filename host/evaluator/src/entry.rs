//! The entries: refusals in their order, numbers, areas.

use crate::check::check;
use crate::form::Row;
use crate::rule::Rule;
use crate::run::{End, Run};
use crate::sheet::Sheet;
use crate::value::Value;
use crate::words::Words;
use reader::{judge, Fault, Form, STRINGS_BYTES, TABLE_BYTES};
use writer::value::TOO_LARGE;

pub const WRONG_SIZE: u32 = 1;
pub const WRONG_SHAPE: u32 = 6;
pub const OUT_OF_STEPS: u32 = 10;
pub const WRONG_WORDS: u32 = 13;
pub const NO_SHEET: u32 = 14;

pub const MAX_LIMIT: u64 = 1_000;
pub const CELL_BYTES: usize = 8;
pub const CELLS_BYTES: usize = 4_096 * CELL_BYTES;

/// A text that an entry takes. Its number is the one that a refusal of it tells.
#[derive(Clone, Copy, Debug, PartialEq, Eq)]
pub enum Text {
    Rule = 1,
    Sheet = 2,
    Record = 3,
}

impl Text {
    pub fn name(self) -> &'static str {
        match self {
            Text::Rule => "rule",
            Text::Sheet => "sheet",
            Text::Record => "record",
        }
    }
}

/// A number that an entry tells.
#[derive(Clone, Copy, Debug, PartialEq, Eq)]
pub enum Number {
    Which,
    Place,
    Words,
    Fits,
    Steps,
    Length,
}

/// A C entry: what it takes and tells, each in the order of its parameters.
#[derive(Debug, PartialEq, Eq)]
pub struct Entry {
    pub name: &'static str,
    pub texts: &'static [Text],
    /// The work areas; behind them stands the output of an entry that evaluates.
    pub areas: &'static [&'static str],
    pub stated: &'static [usize],
    pub numbers: &'static [Number],
    pub number_names: &'static [&'static str],
}

pub const EVALUATE: Entry = Entry {
    name: "jehvrukam_evaluate",
    texts: &[Text::Rule, Text::Record],
    areas: &["rule table", "rule strings", "record table", "record strings", "cells", "output"],
    stated: &[TABLE_BYTES, STRINGS_BYTES, TABLE_BYTES, STRINGS_BYTES, CELLS_BYTES],
    numbers: &[Number::Which, Number::Place, Number::Steps, Number::Length],
    number_names: &["which", "place", "steps", "length"],
};

pub const CHECK: Entry = Entry {
    name: "jehvrukam_check",
    texts: &[Text::Rule, Text::Sheet],
    areas: &["rule table", "rule strings", "sheet table", "sheet strings"],
    stated: &[TABLE_BYTES, STRINGS_BYTES, TABLE_BYTES, STRINGS_BYTES],
    numbers: &[Number::Which, Number::Place, Number::Words],
    number_names: &["which", "place", "words"],
};

pub const FITS: Entry = Entry {
    name: "jehvrukam_fits",
    texts: &[Text::Sheet, Text::Record],
    areas: &["sheet table", "sheet strings", "record table", "record strings"],
    stated: &[TABLE_BYTES, STRINGS_BYTES, TABLE_BYTES, STRINGS_BYTES],
    numbers: &[Number::Which, Number::Place, Number::Fits],
    number_names: &["which", "place", "fits"],
};

#[rustfmt::skip]
pub const EVALUATE_CHECKED: Entry = Entry {
    name: "jehvrukam_evaluate_checked",
    texts: &[Text::Rule, Text::Sheet, Text::Record],
    areas: &[
        "rule table", "rule strings", "sheet table", "sheet strings", "record table", "record strings", "cells",
        "output",
    ],
    stated: &[
        TABLE_BYTES, STRINGS_BYTES, TABLE_BYTES, STRINGS_BYTES, TABLE_BYTES, STRINGS_BYTES, CELLS_BYTES,
    ],
    numbers: &[Number::Which, Number::Place, Number::Words, Number::Fits, Number::Steps, Number::Length],
    number_names: &["which", "place", "words", "fits", "steps", "length"],
};

impl Entry {
    /// It has a limit, cells and an output.
    pub fn evaluates(&self) -> bool {
        self.numbers.contains(&Number::Steps)
    }

    /// Areas of these lengths, or this limit, are refused with 1.
    pub fn is_wrong_size(&self, lengths: &[usize], limit: u64) -> bool {
        let is_short = lengths.iter().zip(self.stated).any(|(length, stated)| length < stated);
        is_short || self.evaluates() && limit > MAX_LIMIT
    }
}

/// What comes of the texts of an entry, before a limit and an output are known.
pub enum Evaluation {
    Unread(Text, Fault),
    /// With 6, 13 or 14.
    Refused(u32),
    Taken(Taken),
}

/// Of texts that are all taken.
pub struct Taken {
    /// The read forms, in the order of the texts.
    pub forms: Vec<Form>,
    /// Of an entry that checks.
    pub words: Words,
    /// Of an entry that tells it.
    pub fits: bool,
    /// Of an entry that evaluates.
    pub run: Option<Run>,
}

/// What comes back.
#[derive(Clone, Debug, Default, PartialEq, Eq)]
pub struct Judgement {
    pub refusal: u32,
    pub which: u64,
    pub place: u64,
    pub words: u64,
    pub fits: u64,
    pub steps: u64,
    /// The answer; empty with a refusal.
    pub text: Vec<u8>,
}

impl Judgement {
    pub fn number(&self, number: Number) -> u64 {
        match number {
            Number::Which => self.which,
            Number::Place => self.place,
            Number::Words => self.words,
            Number::Fits => self.fits,
            Number::Steps => self.steps,
            Number::Length => self.text.len() as u64,
        }
    }
}

/// What the reader says of a text.
pub type Read = Result<Form, Fault>;

impl Evaluation {
    pub fn of(entry: &Entry, texts: &[&[u8]]) -> Evaluation {
        let read: Vec<Read> = texts.iter().map(|text| judge(text)).collect();
        Evaluation::of_read(entry, &read.iter().collect::<Vec<_>>())
    }

    /// Of texts that the reader has seen.
    pub fn of_read(entry: &Entry, read: &[&Read]) -> Evaluation {
        Evaluation::in_order(entry, read).map_or_else(|refused| refused, Evaluation::Taken)
    }

    /// Document 01's order, for as much as the entry takes: rule read; 6; sheet read; 14; 13; record read; evaluation.
    fn in_order(entry: &Entry, texts: &[&Read]) -> Result<Taken, Evaluation> {
        let read = |which: Text| -> Result<Option<&Form>, Evaluation> {
            let given = entry.texts.iter().zip(texts).find(|(text, _)| **text == which);
            given.map(|(_, read)| read.as_ref().map_err(|fault| Evaluation::Unread(which, *fault))).transpose()
        };
        let rule_form = read(Text::Rule)?;
        let rule = taken(rule_form, Rule::of_row, WRONG_SHAPE)?;
        let sheet_form = read(Text::Sheet)?;
        let sheet = taken(sheet_form, Sheet::of_row, NO_SHEET)?;
        let words = match (&rule, &sheet) {
            (Some(rule), Some(sheet)) => check(rule, sheet).ok_or(Evaluation::Refused(WRONG_WORDS))?,
            _ => Words::default(),
        };
        let record_form = read(Text::Record)?;
        let record = record_form.map(|form| Value::of_row(Row::root(form)));
        let fits = match (&sheet, &record) {
            (Some(sheet), Some(record)) => sheet.fits(record),
            _ => false,
        };
        let run = match (&rule, &record) {
            (Some(rule), Some(record)) => Some(Run::of(rule, record, MAX_LIMIT as usize + 1)),
            _ => None,
        };
        let forms = [rule_form, sheet_form, record_form].into_iter().flatten().cloned().collect();
        Ok(Taken { forms, words, fits, run })
    }

    pub fn taken(&self) -> Option<&Taken> {
        match self {
            Evaluation::Taken(taken) => Some(taken),
            _ => None,
        }
    }

    pub fn run(&self) -> Option<&Run> {
        self.taken().and_then(|taken| taken.run.as_ref())
    }

    /// What comes back with a limit, of at most 1,000, and an output of so many bytes.
    pub fn judge(&self, limit: u64, room: usize) -> Judgement {
        let refused = |refusal| Judgement { refusal, ..Judgement::default() };
        match self {
            Evaluation::Unread(which, fault) => {
                Judgement { which: *which as u64, place: fault.place as u64, ..refused(fault.why.refusal()) }
            }
            Evaluation::Refused(refusal) => refused(*refusal),
            Evaluation::Taken(taken) => {
                let (refusal, steps, text) =
                    taken.run.as_ref().map_or_else(Default::default, |run| end(run, limit, room));
                let (words, fits) = (taken.words.0, u64::from(taken.fits));
                Judgement { words, fits, steps, text, ..refused(refusal) }
            }
        }
    }

    /// What the work areas hold in front after success, if all texts were taken; zeros follow.
    pub fn fronts(&self) -> Option<Vec<Vec<u8>>> {
        let taken = self.taken()?;
        let mut fronts: Vec<Vec<u8>> =
            taken.forms.iter().flat_map(|form| [form.row_bytes(), form.strings.clone()]).collect();
        fronts.extend(taken.run.iter().map(|_| Vec::new())); // the cells
        Some(fronts)
    }
}

/// What a text that was read stands for; if nothing, the refusal.
fn taken<T>(form: Option<&Form>, of_row: fn(Row) -> Option<T>, refusal: u32) -> Result<Option<T>, Evaluation> {
    form.map(|form| of_row(Row::root(form)).ok_or(Evaluation::Refused(refusal))).transpose()
}

/// Refusal, steps and text of a run with this limit and an output of so many bytes.
fn end(run: &Run, limit: u64, room: usize) -> (u32, u64, Vec<u8>) {
    let steps = run.steps.len() as u64;
    if steps > limit {
        return (OUT_OF_STEPS, limit, Vec::new());
    }
    match &run.end {
        End::Refused(refusal, _) => (*refusal, steps, Vec::new()),
        End::Value(value) => match value.unshared().map_or(Err(TOO_LARGE), |value| value.written(room)) {
            Ok(text) => (0, steps, text),
            Err(refusal) => (refusal, steps, Vec::new()),
        },
        End::Unfinished => unreachable!("a run ends within any limit that admits its steps"),
    }
}

/// The parameters of a C entry, each in its order.
pub struct Parameters<'a> {
    pub texts: Vec<&'a [u8]>,
    /// Of an entry that evaluates.
    pub limit: u64,
    /// The work areas, then the output of an entry that evaluates.
    pub areas: Vec<&'a mut [u8]>,
    pub numbers: Vec<&'a mut u64>,
}

/// What a C entry is to do.
pub fn call(entry: &Entry, parameters: Parameters) -> u32 {
    let Parameters { texts, limit, areas, numbers } = parameters;
    let lengths: Vec<usize> = areas.iter().map(|area| area.len()).collect();
    if entry.is_wrong_size(&lengths, limit) {
        return WRONG_SIZE;
    }
    let evaluation = Evaluation::of(entry, &texts);
    let judgement = evaluation.judge(limit, lengths[lengths.len() - 1]);
    let nothing = || vec![Vec::new(); entry.stated.len()];
    let mut fronts = evaluation.fronts().filter(|_| judgement.refusal == 0).unwrap_or_else(nothing);
    fronts.push(judgement.text.clone());
    for (area, front) in areas.into_iter().zip(&fronts) {
        area[..front.len()].copy_from_slice(front);
        area[front.len()..].fill(0);
    }
    for (number, which) in numbers.into_iter().zip(entry.numbers) {
        *number = judgement.number(*which);
    }
    judgement.refusal
}

#[cfg(test)]
mod tests {
    use super::*;

    fn judged(rule: &str, record: &str, limit: u64, room: usize) -> (u32, u64, String) {
        let Judgement { refusal, steps, text, .. } =
            Evaluation::of(&EVALUATE, &[rule.as_bytes(), record.as_bytes()]).judge(limit, room);
        (refusal, steps, String::from_utf8(text).unwrap())
    }

    fn ordinary(rule: &str, record: &str) -> (u32, u64, String) {
        judged(rule, record, 1_000, 16_384)
    }

    const SUM: &str = r#"{"reduce":[[1,2,3],{"+":[{"var":"current"},{"var":"accumulator"}]},0]}"#;

    #[test]
    fn both_sides_of_the_line() {
        for (rule, refusal, answer, steps) in [
            (r#"{"===":[{"var":"a"},1]}"#, 0, "true", 3),
            (r#"{"and":[0,{"+":["a",1]}]}"#, 0, "0", 2),
            (r#"{"!":[[]]}"#, 0, "true", 2),
            (r#"{">":[3,2,"x"]}"#, 7, "", 4),
            (r#"{"+":[9007199254740991,1]}"#, 9, "", 3),
            (SUM, 0, "6", 15),
            (r#"{"plusTime":["2020-01-31",1,"month"]}"#, 0, "\"2020-03-02T00:00:00.000Z\"", 2),
            (r#"{"plusTime":["2020-02-29",1,"year"]}"#, 0, "\"2021-03-01T00:00:00.000Z\"", 2),
            (r#"{"extractFromUVCI":["URN:UVCI",0]}"#, 0, "null", 2),
        ] {
            assert_eq!(ordinary(rule, r#"{"a":1}"#), (refusal, steps, answer.to_string()), "{}", rule);
        }
    }

    #[test]
    fn limits() {
        assert_eq!(judged(SUM, "0", 15, 9), (0, 15, "6".to_string()));
        for limit in 0..15 {
            assert_eq!(judged(SUM, "0", limit, 9), (10, limit, String::new()));
        }
        // Where a run is refused at a step, a smaller limit is met before.
        let refused = r#"[1,{"+":[2,"a"]},3]"#;
        assert_eq!(judged(refused, "0", 5, 9), (7, 5, String::new()));
        assert_eq!(judged(refused, "0", 4, 9), (10, 4, String::new()));
        let items = |count: usize| format!("[{}]", vec!["0"; count].join(","));
        assert_eq!(judged(&items(999), "0", 1_000, 16_384), (0, 1_000, items(999)));
        assert_eq!(judged(&items(1_000), "0", 1_000, 16_384), (10, 1_000, String::new()));
        assert_eq!(judged(&items(1_000), "0", 999, 16_384), (10, 999, String::new()));
    }

    #[test]
    fn what_is_evaluated_and_when() {
        let beyond = r#"{"+":[9007199254740991,1]}"#;
        for (rule, refusal, steps) in [
            (format!(r#"{{"+":["a",{}]}}"#, beyond), 9, 5),
            (format!(r#"{{"reduce":[0,1,{}]}}"#, beyond), 9, 5),
            (r#"{"reduce":[0,1,2]}"#.to_string(), 7, 3),
            (format!(r#"{{"reduce":[[],{},2]}}"#, beyond), 0, 3),
            (format!(r#"{{"if":[1,2,{}]}}"#, beyond), 0, 3),
            (format!(r#"{{"if":[0,{},2]}}"#, beyond), 0, 3),
            (format!(r#"{{"and":[1,"",{}]}}"#, beyond), 0, 3),
            (r#"{"and":[{"plusTime":["2020",0,"day"]},0]}"#.to_string(), 7, 3),
            (r#"{"and":[1,{"plusTime":["2020",0,"day"]}]}"#.to_string(), 7, 4),
            (r#"{"!":[{"plusTime":["2020",0,"day"]}]}"#.to_string(), 7, 3),
            (r#"{"if":[{"plusTime":["2020",0,"day"]},1,"b"]}"#.to_string(), 0, 4),
            (r#"{"in":[[],[]]}"#.to_string(), 7, 3),
            (r#"{"===":[1,[]]}"#.to_string(), 7, 3),
        ] {
            let (given, begun, _) = ordinary(&rule, "null");
            assert_eq!((given, begun), (refusal, steps), "{}", rule);
        }
    }

    #[test]
    fn lambdas_see_their_context_alone() {
        for (lambda, answer) in [
            (r#"{"var":""}"#, r#"{"current":2,"accumulator":{"current":1,"accumulator":{"a":1}}}"#),
            (r#"{"var":"a"}"#, "null"),
            (r#"{"var":"current"}"#, "2"),
            (r#"[{"var":"accumulator"},{"var":"current"}]"#, r#"[[{"a":1},1],2]"#),
            (r#"{"reduce":[[5],{"var":"accumulator"},{"var":"current"}]}"#, "2"),
            (r#"{"reduce":[[5],{"var":"accumulator.current"},{"var":""}]}"#, "2"),
            (r#"{"reduce":[[5],{"var":"accumulator.a"},{"var":""}]}"#, "null"),
        ] {
            let rule = format!(r#"{{"reduce":[[1,2],{},{{"var":""}}]}}"#, lambda);
            assert_eq!(ordinary(&rule, r#"{"a":1}"#).2, answer, "{}", lambda);
        }
    }

    #[test]
    fn fragments_of_a_uvci() {
        for (text, index, answer) in [
            ("URN/UVCI#x", 0, "\"x\""),
            ("URN:UVCI:", 0, "\"\""),
            ("URN:UVCI:URN:UVCI:x", 0, "\"URN\""),
            ("urn:uvci:x", 0, "\"urn\""),
            ("URN:x", 0, "\"URN\""),
            ("", 0, "\"\""),
            ("", 1, "null"),
            ("a::c/#/f", 5, "\"f\""),
            ("a::c/#/f", 4, "\"\""),
            ("a::c/#/f", 6, "null"),
            ("a::c/#/f", -1, "null"),
            ("a", 4_294_967_296_i64, "null"),
        ] {
            let rule = format!(r#"{{"extractFromUVCI":["{}",{}]}}"#, text, index);
            assert_eq!(ordinary(&rule, "null").2, answer, "{}", rule);
        }
    }

    #[test]
    fn order_of_refusals() {
        let judged = |rule: &str, record: &str| {
            let Judgement { refusal, which, place, steps, .. } =
                Evaluation::of(&EVALUATE, &[rule.as_bytes(), record.as_bytes()]).judge(0, 0);
            (refusal, which, place, steps)
        };
        assert_eq!(judged("[1.5", "x"), (4, 1, 2, 0));
        assert_eq!(judged("null", "x"), (6, 0, 0, 0));
        assert_eq!(judged("1", "[x"), (2, 3, 1, 0));
        assert_eq!(judged("1", "1"), (10, 0, 0, 0));
        let nested = "[".repeat(32) + &"]".repeat(32);
        assert_eq!(super::tests::judged(r#"{"var":""}"#, &nested, 1, 0), (12, 1, String::new()));
        assert_eq!(super::tests::judged(r#"[{"var":""}]"#, &nested, 2, 0), (11, 2, String::new()));
        assert_eq!(judged(&format!("[{}]", nested), "1"), (5, 1, 32, 0));
    }

    /// Refusal, which, place, words, fits and steps.
    fn told(entry: &Entry, texts: &[&str], limit: u64, room: usize) -> (u32, [u64; 5]) {
        let texts: Vec<&[u8]> = texts.iter().map(|text| text.as_bytes()).collect();
        let judged = Evaluation::of(entry, &texts).judge(limit, room);
        (judged.refusal, [judged.which, judged.place, judged.words, judged.fits, judged.steps])
    }

    #[test]
    fn order_with_a_sheet() {
        let checked = |texts: [&str; 3]| told(&EVALUATE_CHECKED, &texts, 1_000, 16_384);
        let sum = r#"{"+":["a",1]}"#;
        assert_eq!(checked(["x", "x", "x"]), (2, [1, 0, 0, 0, 0]));
        assert_eq!(checked(["null", "x", "x"]), (6, [0; 5]));
        assert_eq!(checked(["1", "[1.5", "x"]), (4, [2, 2, 0, 0, 0]));
        assert_eq!(checked([sum, "[]", "x"]), (14, [0; 5]));
        assert_eq!(checked([sum, "{}", "x"]), (13, [0; 5]));
        assert_eq!(checked(["1", "{}", "x"]), (2, [3, 0, 0, 0, 0]));
        assert_eq!(checked(["1", "{}", "0"]), (0, [0, 0, 4, 1, 1]));
        assert_eq!(told(&CHECK, &["1", "[]"], 0, 0), (14, [0; 5]));
        assert_eq!(told(&CHECK, &["null", "x"], 0, 0), (6, [0; 5]));
        assert_eq!(told(&CHECK, &[sum, "{}"], 0, 0), (13, [0; 5]));
        assert_eq!(told(&CHECK, &["[]", "{}"], 0, 0), (0, [0, 0, 64, 0, 0]));
        assert_eq!(told(&FITS, &["x", "x"], 0, 0), (2, [2, 0, 0, 0, 0]));
        assert_eq!(told(&FITS, &["[]", "x"], 0, 0), (14, [0; 5]));
        assert_eq!(told(&FITS, &["{}", "x"], 0, 0), (2, [3, 0, 0, 0, 0]));
        assert_eq!(told(&FITS, &["{}", "0"], 0, 0), (0, [0, 0, 0, 1, 0]));
        assert_eq!(told(&FITS, &[r#"{"a":["day"]}"#, "{}"], 0, 0), (0, [0; 5]));
    }

    /// Words and fits are told as soon as evaluation has begun.
    #[test]
    fn told_with_refusals() {
        let (sheet, fitting, other) = (r#"{"a":["date"]}"#, r#"{"a":"2020"}"#, r#"{"a":"x"}"#);
        let shift = r#"{"plusTime":[{"var":"a"},9999,"year"]}"#;
        let checked = |rule: &str, record: &str, limit, room| {
            let (refusal, [_, _, words, fits, steps]) = told(&EVALUATE_CHECKED, &[rule, sheet, record], limit, room);
            (refusal, words, fits, steps)
        };
        assert_eq!(checked(shift, fitting, 1_000, 99), (9, 1_024, 1, 2));
        assert_eq!(checked(shift, other, 1_000, 99), (8, 1_024, 0, 2));
        assert_eq!(checked(shift, "1", 1_000, 99), (7, 1_024, 0, 2));
        assert_eq!(checked(shift, fitting, 1, 99), (10, 1_024, 1, 1));
        assert_eq!(checked(r#"{"var":"a"}"#, fitting, 1_000, 5), (12, 16, 1, 1));
        let tower = r#"{"reduce":[[1,2,3,4,5,6,7,8,9,10],[{"var":"accumulator"},{"var":"accumulator"}],[]]}"#;
        assert_eq!(checked(tower, other, 1_000, 99).0, 13); // [[..]] is no list of integers
        let tower = tower.replace(",[]]}", ",[[]]]}");
        assert_eq!(checked(&tower, other, 1_000, 99), (11, 256, 0, 44));
    }
}
