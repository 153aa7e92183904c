//! Runs the cases on an implementation and counts.

use crate::cases::{case, Case, Given, Texts, CLASSES, ENTRIES};
use crate::promise::{broken, Answer};
use crate::wrong::{Wrong, SLIPS};
use evaluation::compare::{Call, Implementation};
use evaluator::cases;
use evaluator::check::check;
use evaluator::entry::*;
use evaluator::form::{Content, Row};
use evaluator::rule::{names, Body, Rule, ARRAY, LITERAL};
use evaluator::sheet::{Sheet, MAX_MEMBERS};
use evaluator::words::{Word, Words};
use harness::lend::{Comparer, Lent};
use harness::random::Random;
use harness::trial::{self, escaped, Plan, Shown};

const CASES: usize = 200_000;
const LEAST: usize = 50;
const OF_VECTORS: &str = "cases of vectors/";

impl Shown for Case {
    fn class(&self) -> &'static str {
        CLASSES.get(self.class).map_or(OF_VECTORS, |class| class.name)
    }

    fn describe(&self) -> String {
        let [rule, sheet, record] = [0, 1, 2].map(|at| escaped(&self.texts[at]));
        let mut lines = vec![format!("  rule     {}\n  sheet    {}\n  record   {}", rule, sheet, record)];
        lines.extend(self.calls.iter().map(|call| format!("  {}\n{}", call.entry.name, call.describe())));
        lines.join("\n")
    }
}

impl trial::Case for Case {
    fn texts(&self) -> Vec<Vec<u8>> {
        self.texts.to_vec()
    }

    fn with(&self, texts: Vec<Vec<u8>>) -> Case {
        let texts: Texts = texts.try_into().expect("three texts");
        let with = |given: Given| self.calls.iter().map(|call| call.with(given.taken(call.entry))).collect();
        Case::new(self.class, texts, with)
    }

    fn met(&self) -> Vec<String> {
        let mut met: Vec<String> = self.calls.iter().flat_map(met_by_call).collect();
        met.extend(met_by_case(self));
        met
    }
}

// ---- what is met

/// The refusals that an entry may answer.
fn refusals(entry: &Entry) -> Vec<u32> {
    let needed = |refusal: &u32| match refusal {
        0..=5 | 14 => true,
        6 => entry.texts.contains(&Text::Rule),
        13 => entry.numbers.contains(&Number::Words),
        _ => entry.evaluates(),
    };
    (0..=14).filter(needed).collect()
}

fn refused(entry: &Entry, refusal: u32) -> String {
    format!("{}: refusal {}", entry.name, refusal)
}

fn unread(entry: &Entry, refusal: u32, text: Text) -> String {
    format!("{}: refusal {} of the {}", entry.name, refusal, text.name())
}

fn too_short(entry: &Entry, area: usize) -> String {
    format!("{}: too short alone: {}", entry.name, entry.areas[area])
}

const FIT: [&str; 2] = ["the record does not fit", "the record fits"];
const ABOVE: &str = "a limit above 1,000 alone";
const ACCEPTED: &str = "accepted";
const ACCEPTED_AND_FITS: &str = "accepted, and the record fits";
const ACCEPTED_AND_NOT: &str = "accepted, and the record does not fit";
const FULL_SHEET: &str = "a sheet of 256 members";
const OVERFULL_SHEET: &str = "14: a sheet of 257 members";
const LAMBDA_IN_LAMBDA: &str = "accepted, and has: a lambda within a lambda";
const TWO_WORDS: &str = "accepted: several words";

/// Operations that can refuse with 13 by themselves.
fn refusers() -> impl Iterator<Item = &'static str> {
    names().filter(|name| ![LITERAL, ARRAY, "var", "if"].contains(name))
}

/// All that is to be met.
fn features() -> Vec<String> {
    let mut all = Vec::new();
    for entry in ENTRIES {
        all.extend(refusals(entry).into_iter().map(|refusal| refused(entry, refusal)));
        all.extend(entry.texts.iter().flat_map(|text| (2..=5).map(move |refusal| unread(entry, refusal, *text))));
        all.extend((0..entry.stated.len()).map(|area| too_short(entry, area)));
        all.push(format!("{}: areas longer than stated", entry.name));
    }
    all.extend(FIT.map(str::to_string));
    all.extend([ABOVE, ACCEPTED, TWO_WORDS, LAMBDA_IN_LAMBDA, FULL_SHEET, OVERFULL_SHEET].map(str::to_string));
    all.extend(Word::all().map(|word| format!("accepted: word {}", word.name())));
    all.extend(names().map(|name| format!("accepted, and has: {}", name)));
    all.extend(refusers().map(|name| format!("13 from {}", name)));
    for word in (0..10).filter_map(|at| Word::all().nth(at)) {
        all.extend(["fits", "does not fit"].map(|how| format!("one member of the one word {}: {}", word.name(), how)));
    }
    all.push(ACCEPTED_AND_FITS.to_string());
    all.extend([0, 9, 10, 11, 12].map(|refusal| format!("{}: refusal {}", ACCEPTED_AND_FITS, refusal)));
    all.push(ACCEPTED_AND_NOT.to_string());
    all.extend([0, 7, 8, 9, 10, 11, 12].map(|refusal| format!("{}: refusal {}", ACCEPTED_AND_NOT, refusal)));
    all
}

/// What a call meets by itself.
fn met_by_call(call: &Call) -> Vec<String> {
    let Call { entry, limit, lent, judgement, .. } = call;
    let mut met = vec![refused(entry, judgement.refusal)];
    if judgement.refusal == WRONG_SIZE {
        let mut why: Vec<String> = lent.short(entry.stated).map(|area| too_short(entry, area)).collect();
        if entry.evaluates() && *limit > MAX_LIMIT {
            why.push(ABOVE.to_string());
        }
        if why.len() == 1 {
            met.extend(why);
        }
        return met;
    }
    if (*entry, judgement.refusal) == (&FITS, 0) {
        met.push(FIT[judgement.fits as usize].to_string());
    }
    let text = entry.texts.iter().find(|text| **text as u64 == judgement.which);
    met.extend(text.map(|text| unread(entry, judgement.refusal, *text)));
    if lent.is_longer(entry.stated) {
        met.push(format!("{}: areas longer than stated", entry.name));
    }
    met
}

/// What the root of a text that reads stands for.
fn of_read<T>(read: &Read, of: impl Fn(Row) -> Option<T>) -> Option<T> {
    read.as_ref().ok().and_then(|form| of(Row::root(form)))
}

/// What a rule, a sheet and a record meet, whatever the areas.
fn met_by_case(case: &Case) -> Vec<String> {
    let [rule, sheet, _] = &case.read;
    let mut met = Vec::new();
    let members = of_read(sheet, |row| Some(row.parts().count()).filter(|_| matches!(row.content(), Content::Object)));
    let (rule, sheet) = (of_read(rule, Rule::of_row), of_read(sheet, Sheet::of_row));
    match (members, &sheet) {
        (Some(MAX_MEMBERS), Some(_)) => met.push(FULL_SHEET.to_string()),
        (Some(257), None) => met.push(OVERFULL_SHEET.to_string()),
        _ => {}
    }
    if let (Some(call), Some(1), Some(sheet)) = (case.call(&FITS), members, &sheet) {
        met.extend(met_by_member(call, sheet));
    }
    if let (Some(rule), Some(sheet)) = (&rule, &sheet) {
        match check(rule, sheet) {
            Some(words) => met.extend(met_by_accepted(rule, words)),
            None => met.extend(refuser(rule, sheet).map(|name| format!("13 from {}", name))),
        }
    }
    let judgement = case.call(&EVALUATE_CHECKED).map(|call| &call.judgement);
    if let Some(judgement) = judgement.filter(|judgement| judgement.words != 0) {
        let how = if judgement.fits == 1 { ACCEPTED_AND_FITS } else { ACCEPTED_AND_NOT };
        met.extend([how.to_string(), format!("{}: refusal {}", how, judgement.refusal)]);
    }
    met
}

/// A sheet of one member with one word.
fn met_by_member(call: &Call, sheet: &Sheet) -> Option<String> {
    let words: Vec<Word> = sheet.listed()[0].1.iter().collect();
    match (&words[..], call.judgement.refusal, call.judgement.fits) {
        ([word], 0, 1) => Some(format!("one member of the one word {}: fits", word.name())),
        ([word], 0, 0) => Some(format!("one member of the one word {}: does not fit", word.name())),
        _ => None,
    }
}

fn met_by_accepted(rule: &Rule, words: Words) -> Vec<String> {
    let mut met = vec![ACCEPTED.to_string()];
    met.extend(words.iter().map(|word| format!("accepted: word {}", word.name())));
    if words.iter().count() > 1 {
        met.push(TWO_WORDS.to_string());
    }
    let mut within = Vec::new();
    put_names(rule, &mut within);
    met.extend(names().filter(|name| within.contains(name)).map(|name| format!("accepted, and has: {}", name)));
    if has_inner_lambda(rule, false) {
        met.push(LAMBDA_IN_LAMBDA.to_string());
    }
    met
}

fn operands(rule: &Rule) -> &[Rule] {
    match &rule.body {
        Body::Literal(_) | Body::Var(_) => &[],
        Body::Array(rules) | Body::Operation(_, rules) => rules,
    }
}

fn put_names(rule: &Rule, names: &mut Vec<&'static str>) {
    if !names.contains(&rule.name) {
        names.push(rule.name);
    }
    operands(rule).iter().for_each(|operand| put_names(operand, names));
}

fn has_inner_lambda(rule: &Rule, in_lambda: bool) -> bool {
    let is_reduce = rule.name == "reduce";
    let of_operand = |(at, operand): (usize, &Rule)| has_inner_lambda(operand, in_lambda || is_reduce && at == 1);
    is_reduce && in_lambda || operands(rule).iter().enumerate().any(of_operand)
}

/// The operation that is refused while its operands, but for a lambda, are accepted.
fn refuser(rule: &Rule, sheet: &Sheet) -> Option<&'static str> {
    let outside = operands(rule).iter().enumerate().filter(|(at, _)| !(rule.name == "reduce" && *at == 1));
    let deeper = outside.map(|(_, operand)| operand).find(|operand| check(operand, sheet).is_none());
    deeper.map_or(Some(rule.name), |operand| refuser(operand, sheet))
}

// ---- runs

/// The cases of `vectors/` of the three entries.
fn vectors() -> Vec<(String, Case)> {
    let mut random = Random::new(1);
    let is_ours = |case: &cases::Case| ENTRIES.contains(&case.entry);
    let made = |case: cases::Case| {
        let outputs = [case.room];
        let mut lengths = [case.entry.stated, &outputs[..usize::from(case.entry.evaluates())]].concat();
        case.short.into_iter().for_each(|at| lengths[at] -= 1);
        let lent = Lent::sized(&mut random, lengths);
        let text = |wanted: Text| case.entry.texts.iter().position(|text| *text == wanted).map(|at| &case.texts[at]);
        let texts = [Text::Rule, Text::Sheet, Text::Record].map(|wanted| text(wanted).cloned().unwrap_or_default());
        let call = |_: Given| vec![Call::new(case.entry, case.texts.clone(), case.limit, lent.clone())];
        (case.id.clone(), Case::new(CLASSES.len(), texts, call))
    };
    cases::all().into_iter().filter(is_ours).map(made).collect()
}

/// Makes all calls of a case; says what differs, or what is not as promised, if anything.
pub fn compare(comparer: &mut Comparer, case: &Case, implementation: &mut dyn Implementation) -> Option<String> {
    case.calls.iter().find_map(|call| {
        let difference = call.compare(comparer, implementation).or_else(|| promised(comparer, call));
        difference.map(|difference| format!("{}: {}", call.entry.name, difference))
    })
}

/// What the last call left, held to the promise.
fn promised(comparer: &Comparer, call: &Call) -> Option<String> {
    if call.entry != &EVALUATE_CHECKED || comparer.refusal() == WRONG_SIZE {
        return None;
    }
    let (words, fits, length) = (comparer.number(2), comparer.number(3), comparer.number(5));
    let text = &comparer.area(call.entry.stated.len())[..length as usize];
    broken(&Answer { refusal: comparer.refusal(), words, fits, text })
}

pub fn plan() -> Plan<Case> {
    let classes = CLASSES.iter().map(|class| class.name).chain([OF_VECTORS]).collect();
    Plan { classes, features: features(), cases: CASES, least: LEAST, case, stored: vectors }
}

/// Runs the cases on implementations with a slip each; gives the passed and the failed, one for each slip.
pub fn self_test(seed: u64, cases: usize) -> (usize, usize) {
    let mut comparer = Comparer::new();
    trial::self_test(case, SLIPS, (seed, cases), &mut |case: &Case, slip| {
        compare(&mut comparer, case, &mut Wrong::new(slip))
    })
}

#[cfg(test)]
mod tests {
    use super::*;
    use evaluation::compare::Independent;
    use harness::trial::numbers;

    const SEED: u64 = 20_261_118;

    /// The independent implementation has no difference from itself, keeps what is promised, and the cases meet all
    /// that they are to meet.
    #[test]
    fn each_feature_is_met() {
        let mut comparer = Comparer::new();
        let compare = &mut |case: &Case| compare(&mut comparer, case, &mut Independent);
        let (passed, failed) = trial::run(&plan(), numbers(SEED, CASES / 4), Some(LEAST / 8), false, compare);
        assert_eq!((passed, failed), (CLASSES.len() + 1 + features().len(), 0));
    }

    #[test]
    fn each_slip_is_noticed() {
        assert_eq!(self_test(SEED, CASES), (SLIPS.len(), 0));
    }
}
