//! Runs the cases on an evaluator and counts.

use crate::cases::{case, Case, CLASSES};
use crate::compare::Call;
use crate::random::Random;
use crate::wrong::{Wrong, SLIPS};
use evaluator::cases;
use evaluator::entry::{EVALUATE, MAX_LIMIT, OUT_OF_STEPS, WRONG_SIZE};
use evaluator::form::Row;
use evaluator::rule::{names, ARRAY, LITERAL};
use evaluator::run::{End, Run, NO_DATE, OUT_OF_RANGE, WRONG_KIND};
use harness::lend::{Comparer, Lent};
use harness::trial::{self, escaped, Plan, Shown};
use reader::Form;
use writer::value::{Value, MAX_NESTING, MAX_TEXT_BYTES, MAX_VALUES, OUTPUT_TOO_SHORT, TOO_LARGE};

const CASES: usize = 240_000;
const LEAST: usize = 200;
const OF_VECTORS: &str = "cases of vectors/";

// ---- what is met

/// A run with its texts' read forms.
struct Ran<'a> {
    call: &'a Call,
    rule: &'a Form,
    record: &'a Form,
    run: &'a Run,
    /// The answer, unless it is far too large or there is none.
    answer: Option<Value>,
}

/// Features of cases that run, each to be met often.
type Feature = (&'static str, fn(&Ran) -> bool);
const FEATURES: &[Feature] = &[
    ("done: the limit is the number of steps", |ran| ran.is(0) && ran.call.limit == ran.steps()),
    ("done: the limit is one more", |ran| ran.is(0) && ran.call.limit == ran.steps() + 1),
    ("done: 1,000 steps", |ran| ran.is(0) && ran.steps() == MAX_LIMIT),
    ("done: nests exactly 32 deep", |ran| ran.is(0) && ran.sizes()[0] == MAX_NESTING),
    ("done: exactly 1,024 values", |ran| ran.is(0) && ran.sizes()[1] == MAX_VALUES),
    ("done: exactly 16,384 bytes", |ran| ran.is(0) && ran.sizes()[2] == MAX_TEXT_BYTES),
    ("done: as long as the output", |ran| ran.is(0) && ran.sizes()[2] == ran.call.room()),
    ("done: areas longer than stated", |ran| ran.is(0) && ran.is_longer()),
    ("done: with an instant", |ran| ran.is(0) && ran.answer.as_ref().map_or(false, Value::has_instants)),
    ("done: with a context", |ran| ran.is(0) && has(&ran.call.judgement.text, b"{\"current\":")),
    ("done: a rule with white space", |ran| ran.is(0) && ran.call.texts[0].iter().any(|byte| b"\t\n\r".contains(byte))),
    ("done: a rule with an escape", |ran| ran.is(0) && has(&ran.call.texts[0], b"\\u")),
    ("done: a rule that nests 32 deep", |ran| ran.is(0) && nesting(Row::root(ran.rule)) == MAX_NESTING),
    ("done: a reduce within a reduce", |ran| ran.is(0) && ran.has_nested_reduce()),
    ("done: a path into an array of many items, some with parts", |ran| ran.is(0) && ran.steps() == 1 && ran.has_many_parts()),
    ("refused: areas longer than stated", |ran| !ran.is(0) && ran.is_longer()),
    ("10: a limit of 0", |ran| ran.is(OUT_OF_STEPS) && ran.call.limit == 0),
    ("10: the limit is one less than the steps", |ran| ran.is(OUT_OF_STEPS) && ran.call.limit + 1 == ran.steps()),
    ("10: a limit of 1,000", |ran| ran.is(OUT_OF_STEPS) && ran.call.limit == MAX_LIMIT),
    ("11: nests 33 deep, else small", |ran| ran.is(TOO_LARGE) && ran.exceeds([33, 0, 0])),
    ("11: 1,025 values, else small", |ran| ran.is(TOO_LARGE) && ran.exceeds([0, 1_025, 0])),
    ("11: 16,385 bytes, else small", |ran| ran.is(TOO_LARGE) && ran.exceeds([0, 0, 16_385])),
    ("11: far too large", |ran| ran.is(TOO_LARGE) && ran.answer.is_none()),
    ("11: into an output that is too short as well", |ran| ran.is(TOO_LARGE) && ran.call.room() < 1_000),
    ("12: into an output of no bytes", |ran| ran.is(OUTPUT_TOO_SHORT) && ran.call.room() == 0),
    ("12: one byte too short", |ran| ran.is(OUTPUT_TOO_SHORT) && ran.call.room() + 1 == ran.sizes()[2]),
];

impl Ran<'_> {
    fn is(&self, refusal: u32) -> bool {
        self.call.judgement.refusal == refusal
    }

    fn is_longer(&self) -> bool {
        self.call.lent.is_longer(EVALUATE.stated)
    }

    fn steps(&self) -> u64 {
        self.run.steps.len() as u64
    }

    /// Nesting, values and bytes of the answer.
    fn sizes(&self) -> [usize; 3] {
        self.answer.as_ref().map_or([0; 3], |answer| [answer.nesting(), answer.count(), answer.text().len()])
    }

    /// The answer passes just those limits that are given, and has that size.
    fn exceeds(&self, wanted: [usize; 3]) -> bool {
        let most = [MAX_NESTING, MAX_VALUES, MAX_TEXT_BYTES];
        let as_wanted = |((size, most), wanted): ((usize, usize), usize)| match wanted {
            0 => size <= most,
            _ => size == wanted,
        };
        self.answer.is_some() && self.sizes().into_iter().zip(most).zip(wanted).all(as_wanted)
    }

    /// The record is an array of more than 24 items, which are not a row each: they have an index.
    fn has_many_parts(&self) -> bool {
        const ARRAY_ROW: u32 = 6;
        let [kind, _, count, end] = self.record.rows[0];
        kind == ARRAY_ROW && count > 24 && end != count + 1
    }

    fn has_nested_reduce(&self) -> bool {
        let reduces = || self.run.steps.iter().filter(|(_, name)| *name == "reduce").map(|(row, _)| *row);
        let within = |outer: usize, inner: usize| outer < inner && inner < self.rule.rows[outer][3] as usize;
        reduces().next().map_or(false, |first| reduces().any(|inner| within(first, inner)))
    }
}

fn has(text: &[u8], piece: &[u8]) -> bool {
    text.windows(piece.len()).any(|window| window == piece)
}

fn nesting(row: Row) -> usize {
    let inner = row.parts().map(nesting).max();
    inner.map_or_else(|| usize::from(row.is_container()), |inner| inner + 1)
}

/// Which rules refuse with a number.
fn refusers(refusal: u32) -> Vec<&'static str> {
    let of = |names: &[&'static str]| names.to_vec();
    match refusal {
        WRONG_KIND => names().filter(|name| ![LITERAL, ARRAY, "var", "if"].contains(name)).collect(),
        NO_DATE => of(&["plusTime", "dccDateOfBirth"]),
        OUT_OF_RANGE => of(&["+", "plusTime"]),
        _ => Vec::new(),
    }
}

/// All that is to be met.
fn features() -> Vec<String> {
    let mut all: Vec<String> = (0..=12).map(|refusal| format!("refusal {:2}", refusal)).collect();
    for refusal in 2..=5 {
        all.extend(EVALUATE.texts.iter().map(|text| format!("refusal {} of the {}", refusal, text.name())));
    }
    all.extend((0..EVALUATE.stated.len()).map(too_short_alone));
    all.push("1: a limit above 1,000 alone".to_string());
    all.extend(names().map(|name| format!("done, and begun: {}", name)));
    for refusal in [WRONG_KIND, NO_DATE, OUT_OF_RANGE] {
        all.extend(refusers(refusal).iter().map(|name| format!("{} from {}", refusal, name)));
    }
    all.extend(FEATURES.iter().map(|(name, _)| name.to_string()));
    all
}

fn too_short_alone(area: usize) -> String {
    format!("1: too short alone: {}", EVALUATE.areas[area])
}

/// What a call meets.
fn met(call: &Call) -> Vec<String> {
    let refusal = call.judgement.refusal;
    let mut met = vec![format!("refusal {:2}", refusal)];
    if refusal == WRONG_SIZE {
        let mut why: Vec<String> = call.lent.short(EVALUATE.stated).map(too_short_alone).collect();
        if call.limit > MAX_LIMIT {
            why.push("1: a limit above 1,000 alone".to_string());
        }
        if why.len() == 1 {
            met.extend(why);
        }
        return met;
    }
    let refused = EVALUATE.texts.iter().find(|text| **text as u64 == call.judgement.which);
    met.extend(refused.map(|text| format!("refusal {} of the {}", refusal, text.name())));
    if let (Some(taken), Some(run)) = (call.evaluation.taken(), call.evaluation.run()) {
        let answer = match &run.end {
            End::Value(value) => value.unshared(),
            _ => None,
        };
        match run.end {
            End::Refused(number, name) if number == refusal => met.push(format!("{} from {}", number, name)),
            _ => {}
        }
        if refusal == 0 {
            let begun = names().filter(|name| run.steps.iter().any(|(_, begun)| begun == name));
            met.extend(begun.map(|name| format!("done, and begun: {}", name)));
        }
        let ran = Ran { call, rule: &taken.forms[0], record: &taken.forms[1], run, answer };
        met.extend(FEATURES.iter().filter(|(_, holds)| holds(&ran)).map(|(name, _)| name.to_string()));
    }
    met
}

// ---- runs

impl Shown for Case {
    fn class(&self) -> &'static str {
        CLASSES.get(self.class).map_or(OF_VECTORS, |class| class.name)
    }

    fn describe(&self) -> String {
        let [rule, record] = [0, 1].map(|at| escaped(&self.call.texts[at]));
        format!("  rule     {}\n  record   {}\n{}", rule, record, self.call.describe())
    }
}

impl trial::Case for Case {
    fn texts(&self) -> Vec<Vec<u8>> {
        self.call.texts.clone()
    }

    fn with(&self, texts: Vec<Vec<u8>>) -> Case {
        Case { class: self.class, call: self.call.with(texts) }
    }

    fn met(&self) -> Vec<String> {
        met(&self.call)
    }
}

/// The cases of `vectors/` that a rule and a record decide.
fn vectors() -> Vec<(String, Case)> {
    let mut random = Random::new(1);
    let made = |case: cases::Case| {
        let mut lengths = [EVALUATE.stated, &[case.room]].concat();
        case.short.into_iter().for_each(|at| lengths[at] -= 1);
        let lent = Lent::sized(&mut random, lengths);
        (case.id, Case { class: CLASSES.len(), call: Call::new(&EVALUATE, case.texts, case.limit, lent) })
    };
    cases::of_entry(&EVALUATE).into_iter().map(made).collect()
}

pub fn plan() -> Plan<Case> {
    let classes = CLASSES.iter().map(|class| class.name).chain([OF_VECTORS]).collect();
    Plan { classes, features: features(), cases: CASES, least: LEAST, case, stored: vectors }
}

/// Runs the cases on implementations with a slip each; gives the passed and the failed, one for each slip.
pub fn self_test(seed: u64, cases: usize) -> (usize, usize) {
    let mut comparer = Comparer::new();
    trial::self_test(case, SLIPS, (seed, cases), &mut |case: &Case, slip| {
        case.call.compare(&mut comparer, &mut Wrong::new(slip))
    })
}

#[cfg(test)]
mod tests {
    use super::*;
    use crate::compare::Independent;
    use harness::trial::numbers;

    const SEED: u64 = 20_261_117;

    /// The independent evaluator has no difference from itself, and the cases meet all that they are to meet.
    #[test]
    fn each_feature_is_met() {
        let mut comparer = Comparer::new();
        let compare = &mut |case: &Case| case.call.compare(&mut comparer, &mut Independent);
        let (passed, failed) = trial::run(&plan(), numbers(SEED, CASES / 4), Some(LEAST / 8), false, compare);
        assert_eq!((passed, failed), (CLASSES.len() + 1 + features().len(), 0));
    }

    #[test]
    fn each_slip_is_noticed() {
        assert_eq!(self_test(SEED, CASES), (SLIPS.len(), 0));
    }

    #[test]
    fn shares_are_of_a_hundred() {
        assert_eq!(CLASSES.iter().map(|class| class.share).sum::<usize>(), 100);
    }
}
