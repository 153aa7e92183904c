//! The order of the refusals, the numbers and the areas.

use super::kinds::bits;
use super::sheet::Members;
use super::{Slip, Wrong};
use evaluation::compare::Implementation;
use evaluator::entry::{Entry, Number, Parameters, Text};
use evaluator::form::Row;
use evaluator::rule::Rule;
use evaluator::run::{End, Run};
use evaluator::value;
use reader::{Fault, Form};
use writer::areas::Areas;
use writer::value::Value;

/// What comes back, and the read forms that were made.
#[derive(Default)]
struct Outcome {
    refusal: u32,
    which: u64,
    place: u64,
    words: u64,
    fits: u64,
    steps: u64,
    text: Vec<u8>,
    rule: Form,
    sheet: Form,
    record: Form,
}

/// The texts of a call, those that an entry does not take empty.
struct Given<'a> {
    entry: &'a Entry,
    texts: [Option<&'a [u8]>; 3],
}

impl Given<'_> {
    fn fault(&self, text: Text) -> Option<Fault> {
        self.texts[text as usize - 1].and_then(|text| reader::judge(text).err())
    }

    fn form(&self, text: Text) -> Option<Form> {
        self.texts[text as usize - 1].and_then(|text| reader::judge(text).ok())
    }

    fn value(&self, text: Text) -> Option<Value> {
        self.form(text).map(|form| value(&form))
    }
}

fn value(form: &Form) -> Value {
    let table = form.row_bytes();
    Areas { rule: &[], strings: &form.strings, table: &table, cells: &[] }
        .unfold_row(0)
        .expect("a read text is no larger")
}

fn rule_of(form: &Form) -> Option<Rule> {
    Rule::of_row(Row::root(form))
}

impl Implementation for Wrong {
    fn call(&mut self, entry: &Entry, parameters: Parameters) -> u32 {
        let Parameters { texts, limit, mut areas, mut numbers } = parameters;
        if self.is_refused(entry, &areas, limit) {
            if self.is(Slip::OneClearsNumbers) {
                numbers.iter_mut().for_each(|number| **number = 0);
            }
            if self.is(Slip::OneClearsAreas) {
                areas.iter_mut().for_each(|area| area.fill(0));
            }
            return 1;
        }
        let given = |wanted: Text| entry.texts.iter().position(|text| *text == wanted).map(|at| texts[at]);
        let given = Given { entry, texts: [given(Text::Rule), given(Text::Sheet), given(Text::Record)] };
        let output = if entry.evaluates() { areas.pop() } else { None };
        let outcome = self.judge(&given, limit, output.as_ref().map_or(0, |output| output.len()));
        for (number, which) in numbers.into_iter().zip(entry.numbers) {
            let told = match which {
                Number::Which => Some(outcome.which),
                Number::Place => Some(outcome.place),
                Number::Words => self.told_words(&outcome),
                Number::Fits => self.told_fits(&outcome),
                Number::Steps if matches!(outcome.refusal, 7..=9) && self.is(Slip::NoStepsOnRefusal) => Some(0),
                Number::Steps => Some(outcome.steps),
                Number::Length => Some(outcome.text.len() as u64),
            };
            told.into_iter().for_each(|told| *number = told);
        }
        let refusal = outcome.refusal;
        let is_left = matches!(refusal, 13 | 14) && self.is(Slip::OutputLeft);
        if let Some(output) = output.filter(|_| !is_left) {
            output[..outcome.text.len()].copy_from_slice(&outcome.text);
            output[outcome.text.len()..].fill(0);
        }
        self.leave(entry, outcome, areas);
        refusal
    }
}

impl Wrong {
    /// Whether sizes and limit are refused.
    fn is_refused(&self, entry: &Entry, areas: &[&mut [u8]], limit: u64) -> bool {
        let slip = |name: &str| match name {
            "rule table" => self.is(Slip::RuleTableShort),
            "sheet table" => self.is(Slip::SheetTableShort),
            "sheet strings" => self.is(Slip::SheetStringsShort),
            "record strings" => self.is(Slip::RecordStringsShort),
            "cells" => self.is(Slip::CellsShort),
            _ => false,
        };
        let least = |at: usize| entry.stated[at] - usize::from(slip(entry.areas[at]));
        let most = if self.is(Slip::LimitOneMore) { 1_001 } else { 1_000 };
        (0..entry.stated.len()).any(|at| areas[at].len() < least(at)) || entry.evaluates() && limit > most
    }

    /// The texts and shapes in the order in which they are refused.
    fn judge(&self, given: &Given, limit: u64, room: usize) -> Outcome {
        let order = match self.slip {
            Slip::SheetBeforeShape => ["rule", "sheet", "6", "14", "13", "record"],
            Slip::SheetShapeBeforeRule => ["rule", "sheet", "14", "6", "13", "record"],
            Slip::KindsBeforeSheet => ["rule", "6", "13", "sheet", "14", "record"],
            Slip::KindsAfterRecord => ["rule", "6", "sheet", "14", "record", "13"],
            Slip::SheetShapeAfterRecord => ["rule", "6", "sheet", "record", "14", "13"],
            Slip::RecordFirst => ["record", "rule", "6", "sheet", "14", "13"],
            _ => ["rule", "6", "sheet", "14", "13", "record"],
        };
        let mut outcome = Outcome::default();
        for what in order {
            let refused = match what {
                "rule" => self.read(given, Text::Rule, &mut outcome),
                "sheet" => self.read(given, Text::Sheet, &mut outcome),
                "record" => self.read(given, Text::Record, &mut outcome),
                "6" => given.form(Text::Rule).filter(|form| rule_of(form).is_none()).map(|_| (6, 0, 0)),
                "14" => {
                    let which = if self.is(Slip::FourteenTellsSheet) { 2 } else { 0 };
                    given.value(Text::Sheet).filter(|sheet| self.members(sheet).is_none()).map(|_| (14, which, 0))
                }
                _ => self.check(given, &mut outcome),
            };
            if let Some((refusal, which, place)) = refused {
                return Outcome { refusal, which, place, ..outcome };
            }
        }
        self.evaluate(given, limit, room, outcome)
    }

    fn read(&self, given: &Given, text: Text, outcome: &mut Outcome) -> Option<(u32, u64, u64)> {
        let which = match (text, self.slip) {
            (Text::Sheet, Slip::SheetIsThree) => 3,
            (Text::Sheet, Slip::SheetIsOne) => 1,
            _ => text as u64,
        };
        if let Some(fault) = given.fault(text) {
            return Some((fault.why.refusal(), which, fault.place as u64));
        }
        let form = given.form(text).unwrap_or_default();
        match text {
            Text::Rule => outcome.rule = form,
            Text::Sheet => outcome.sheet = form,
            Text::Record => outcome.record = form,
        }
        None
    }

    fn check(&self, given: &Given, outcome: &mut Outcome) -> Option<(u32, u64, u64)> {
        let (rule, sheet) = (given.value(Text::Rule)?, given.texts[1]?);
        let sheet = reader::judge(sheet).map_or(Value::Object(Vec::new()), |form| value(&form));
        let members: &Members = self.members(&sheet).unwrap_or_default();
        match self.kinds(&rule, members) {
            None => Some((13, u64::from(self.is(Slip::ThirteenTellsRule)), 0)),
            Some(words) => {
                outcome.words = bits(&words) << u64::from(self.is(Slip::WordsShifted));
                None
            }
        }
    }

    /// Fits, and the run, where the entry has them.
    fn evaluate(&self, given: &Given, limit: u64, room: usize, mut outcome: Outcome) -> Outcome {
        let (sheet, record) = match given.value(Text::Record) {
            Some(record) => (given.value(Text::Sheet), record),
            None => return outcome,
        };
        let fits = sheet.map_or(true, |sheet| self.fits(self.members(&sheet).unwrap_or_default(), &record));
        outcome.fits = u64::from(fits);
        if !given.entry.evaluates() {
            return outcome;
        }
        match self.slip {
            Slip::UnfitIsThirteen if !fits => return Outcome { refusal: 13, words: 0, ..outcome },
            Slip::UnfitNotRun if !fits => return Outcome { refusal: 7, ..outcome },
            _ => {}
        }
        let rule = rule_of(&outcome.rule).expect("a rule");
        let run = Run::of(&rule, &value::Value::from(&record), 1_001);
        outcome.steps = limit.min(run.steps.len() as u64);
        let written = |value: &value::Value| value.unshared().map_or(Err(11), |value| value.written(room));
        let end = match &run.end {
            _ if run.steps.len() as u64 > limit => Err(10),
            End::Refused(refusal, _) => Err(*refusal),
            End::Value(value) => written(value),
            End::Unfinished => Err(10),
        };
        match end {
            Ok(text) => outcome.text = text,
            Err(refusal) => outcome.refusal = refusal,
        }
        outcome
    }

    /// The words that are told; nothing if they are left as they were.
    fn told_words(&self, outcome: &Outcome) -> Option<u64> {
        match outcome.refusal {
            0 => Some(outcome.words),
            _ if self.is(Slip::WordsLeft) => None,
            7..=12 if self.is(Slip::NoWordsOnRefusal) => Some(0),
            10 if self.is(Slip::NoWordsOnTen) => Some(0),
            7..=12 => Some(outcome.words),
            2..=5 if outcome.which == 3 && self.is(Slip::WordsOfUnread) => Some(outcome.words),
            _ => Some(0),
        }
    }

    fn told_fits(&self, outcome: &Outcome) -> Option<u64> {
        match outcome.refusal {
            0 => Some(outcome.fits),
            _ if self.is(Slip::FitsLeft) => None,
            7..=12 if self.is(Slip::NoFitsOnRefusal) => Some(0),
            7..=12 => Some(outcome.fits),
            _ => Some(0),
        }
    }

    /// Leaves the work areas behind.
    fn leave(&self, entry: &Entry, outcome: Outcome, areas: Vec<&mut [u8]>) {
        let Outcome { refusal, which, mut rule, mut sheet, mut record, .. } = outcome;
        if self.is(Slip::AreasSwapped) {
            match entry.texts[0] {
                Text::Rule => std::mem::swap(&mut rule, &mut sheet),
                _ => std::mem::swap(&mut sheet, &mut record),
            }
        }
        let unread = |text: Text| (2..=5).contains(&refusal) && which == text as u64;
        for (at, (area, name)) in areas.into_iter().zip(entry.areas).enumerate() {
            let (form, stays) = match name.split(' ').next() {
                Some("rule") => (&rule, self.rule_stays(refusal)),
                Some("sheet") => (&sheet, self.sheet_stays(refusal, unread(Text::Record))),
                Some("record") => (&record, refusal == 0 && !self.is(Slip::RecordCleared)),
                _ => (&rule, false),
            };
            let is_left = match self.slip {
                Slip::CellsLeft => *name == "cells",
                Slip::RecordLeftOnSheet => name.starts_with("record") && unread(Text::Sheet),
                _ => false,
            };
            if is_left {
                continue;
            }
            let mut front = if name.ends_with("table") { form.row_bytes() } else { form.strings.clone() };
            front.truncate(if stays { area.len() } else { 0 });
            let end = if self.is(Slip::TailLeft) { area.len().min(entry.stated[at]) } else { area.len() };
            area[..front.len()].copy_from_slice(&front);
            area[front.len()..end].fill(0);
        }
    }

    fn rule_stays(&self, refusal: u32) -> bool {
        match self.slip {
            Slip::RuleLeftOnThirteen => refusal == 0 || refusal == 13,
            Slip::RuleLeftOnFourteen => refusal == 0 || refusal == 14,
            _ => refusal == 0,
        }
    }

    fn sheet_stays(&self, refusal: u32, record_unread: bool) -> bool {
        match self.slip {
            Slip::SheetLeftOnThirteen => refusal == 0 || refusal == 13,
            Slip::SheetLeftOnRecord => refusal == 0 || record_unread,
            Slip::SheetLeftOnRun => refusal == 0 || (7..=12).contains(&refusal),
            Slip::SheetCleared => false,
            _ => refusal == 0,
        }
    }
}
