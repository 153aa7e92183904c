//! The order of the refusals, the numbers and the areas.

use super::{Slip, Wrong};
use crate::compare::Implementation;
use evaluator::entry::{Entry, Parameters, EVALUATE, MAX_LIMIT};
use reader::{Fault, Form};
use writer::areas::Areas;
use writer::value::Value;

const RULE: u64 = 1;
const RECORD: u64 = 3;

/// What comes back, and the read forms that were made.
#[derive(Default)]
pub struct Outcome {
    refusal: u32,
    which: u64,
    place: u64,
    steps: u64,
    text: Vec<u8>,
    rule: Form,
    record: Form,
}

fn value(form: &Form) -> Value {
    let table = form.row_bytes();
    Areas { rule: &[], strings: &form.strings, table: &table, cells: &[] }
        .unfold_row(0)
        .expect("a read text is no larger")
}

impl Implementation for Wrong {
    fn call(&mut self, _entry: &Entry, parameters: Parameters) -> u32 {
        let Parameters { texts, limit, areas: mut work, numbers } = parameters;
        let (rule, record) = (texts[0], texts[1]);
        let output = work.pop().expect("the output");
        let mut numbers = numbers.into_iter();
        let mut next = || numbers.next().expect("a number");
        let (which, place, steps, length) = (next(), next(), next(), next());
        let limit = if self.is(Slip::LimitOf32Bits) { limit & 0xffff_ffff } else { limit };
        let reads = reader::judge(rule).is_ok() && reader::judge(record).is_ok();
        if self.is_refused(&work, output.len(), limit) && (reads || !self.is(Slip::SizesAfterReading)) {
            if self.is(Slip::OneClearsNumbers) {
                *which = 0;
                *place = 0;
                *steps = 0;
                *length = 0;
            }
            if self.is(Slip::OneClearsOutput) {
                output.fill(0);
            }
            return 1;
        }
        let outcome = self.judge(rule, record, limit, output.len());
        let refusal = outcome.refusal;
        let is_unread = (2..=5).contains(&refusal);
        if is_unread || !self.is(Slip::WhichLeft) {
            *which = outcome.which;
        }
        if is_unread || !self.is(Slip::PlaceLeft) {
            *place = outcome.place;
        }
        if !(2..=6).contains(&refusal) || !self.is(Slip::StepsLeft) {
            *steps = match refusal {
                7..=9 if self.is(Slip::NoStepsOnRefusal) => 0,
                11..=12 if self.is(Slip::NoStepsOnLarge) => 0,
                10 if self.is(Slip::TenTellsMore) => outcome.steps + 1,
                _ => outcome.steps,
            };
        }
        if refusal == 0 || refusal == 12 && self.is(Slip::ShortTellsLength) {
            *length = outcome.text.len() as u64;
        } else if !self.is(Slip::LengthLeft) {
            *length = 0;
        }
        self.leave(outcome, work, output);
        refusal
    }
}

impl Wrong {
    /// Whether sizes and limit are refused.
    fn is_refused(&self, work: &[&mut [u8]], room: usize, limit: u64) -> bool {
        let short = [
            Slip::RuleTableShort,
            Slip::RuleStringsShort,
            Slip::RecordTableShort,
            Slip::RecordStringsShort,
            Slip::CellsShort,
        ];
        let least = |at: usize| EVALUATE.stated[at] - usize::from(self.is(short[at]));
        let most = match self.slip {
            Slip::LimitOneMore => MAX_LIMIT + 1,
            Slip::LimitOneLess => MAX_LIMIT - 1,
            _ => MAX_LIMIT,
        };
        limit > most || (0..5).any(|at| work[at].len() < least(at)) || self.is(Slip::OutputIsWork) && room < 16_384
    }

    fn judge(&self, rule: &[u8], record: &[u8], limit: u64, room: usize) -> Outcome {
        let mut outcome = Outcome::default();
        if self.is(Slip::RecordFirst) {
            if let Err(fault) = reader::judge(record) {
                return self.unread(RECORD, fault, outcome);
            }
        }
        match reader::judge(rule) {
            Ok(form) => outcome.rule = form,
            Err(fault) => return self.unread(RULE, fault, outcome),
        }
        let rule = value(&outcome.rule);
        let has_shape = self.shape(&rule) && !self.is(Slip::AlwaysSix);
        let is_late = self.is(Slip::ShapeLast) && reader::judge(record).is_err();
        if !has_shape && !is_late {
            let which = if self.is(Slip::SixTellsRule) { RULE } else { 0 };
            return Outcome { refusal: 6, which, ..outcome };
        }
        match reader::judge(record) {
            Ok(form) => outcome.record = form,
            Err(fault) => return self.unread(RECORD, fault, outcome),
        }
        let record = value(&outcome.record);
        let (result, steps) = self.run(&rule, &record, limit);
        outcome.steps = if self.is(Slip::StepsMadeUp) { rule.count() as u64 } else { steps };
        match result.and_then(|item| self.text(&item, room)) {
            _ if self.is(Slip::AlwaysTrue) => outcome.text = b"true".to_vec(),
            _ if self.is(Slip::AlwaysTen) => outcome.refusal = 10,
            Ok(_) if self.is(Slip::WritesNothing) => {}
            Ok(text) => outcome.text = text,
            Err(refusal) => outcome.refusal = refusal,
        }
        let is_short = match self.slip {
            Slip::RoomOneLess => outcome.text.len() + 1 > room,
            _ => outcome.text.len() > room,
        };
        if outcome.refusal == 0 && is_short {
            outcome.refusal = 12;
        }
        outcome
    }

    fn unread(&self, which: u64, fault: Fault, outcome: Outcome) -> Outcome {
        let which = match (which, self.slip) {
            (RULE, Slip::WhichSwapped) => RECORD,
            (RECORD, Slip::WhichSwapped) => RULE,
            (RECORD, Slip::RecordIsTwo) => 2,
            _ => which,
        };
        let place = fault.place as u64 + u64::from(self.is(Slip::PlaceOneMore));
        Outcome { refusal: fault.why.refusal(), which, place, ..outcome }
    }

    /// Leaves the areas behind.
    fn leave(&self, outcome: Outcome, work: Vec<&mut [u8]>, output: &mut [u8]) {
        let Outcome { refusal, which, rule, record, text, .. } = outcome;
        let (rule, record) = if self.is(Slip::AreasSwapped) { (record, rule) } else { (rule, record) };
        let late = refusal >= 7;
        let rule_stays = match self.slip {
            Slip::RuleLeftOnRecord => (2..=5).contains(&refusal) && which == RECORD,
            Slip::RuleLeftOnSix => refusal == 6,
            _ => false,
        };
        let (tables, strings) = (late && self.is(Slip::TablesLeft), late && self.is(Slip::StringsLeft));
        let record_stays = refusal == 0 && !self.is(Slip::RecordCleared);
        let fronts = [
            (rule.row_bytes(), refusal == 0 || tables || rule_stays),
            (rule.strings, refusal == 0 || strings || rule_stays),
            (record.row_bytes(), record_stays || tables),
            (record.strings, record_stays || strings),
            (Vec::new(), true),
        ];
        for (at, (area, (mut front, stays))) in work.into_iter().zip(fronts).enumerate() {
            let is_left = match self.slip {
                Slip::CellsLeft => at == 4,
                Slip::CellsLeftOnTen => at == 4 && refusal == 10,
                Slip::RecordLeftOnRule => (at == 2 || at == 3) && (2..=5).contains(&refusal) && which == RULE,
                _ => false,
            };
            if is_left {
                continue;
            }
            let end = if self.is(Slip::TailLeft) { area.len().min(EVALUATE.stated[at]) } else { area.len() };
            front.truncate(if stays { area.len() } else { 0 });
            area[..front.len()].copy_from_slice(&front);
            area[front.len()..end].fill(0);
        }
        if refusal != 0 && self.is(Slip::OutputLeft) {
            return;
        }
        let written = match refusal {
            0 => text.len(),
            12 if self.is(Slip::ShortLeavesFront) => text.len().min(output.len()),
            _ => 0,
        };
        output[..written].copy_from_slice(&text[..written]);
        if refusal != 0 || !self.is(Slip::OutputTailLeft) {
            output[written..].fill(0);
        }
    }
}
