//! The evaluator on the cases of `vectors/`.

use evaluator::cases::{of_entry, Case};
use evaluator::entry::{call, Entry, Evaluation, Number, Parameters, CHECK, EVALUATE, EVALUATE_CHECKED, FITS};

const NOISE: u8 = 0xa5;
const NO_NUMBER: u64 = 0xa5;

/// Areas of the stated sizes, but for the one that a case names as short, and an output.
fn areas(case: &Case) -> Vec<Vec<u8>> {
    let lengths = case.entry.stated.iter().copied().chain([case.room]).take(case.entry.areas.len());
    let mut areas: Vec<Vec<u8>> = lengths.map(|length| vec![NOISE; length]).collect();
    if let Some(short) = case.short {
        let less = if case.entry.areas[short].ends_with("strings") { 1 } else { 8 };
        let length = areas[short].len() - less;
        areas[short].truncate(length);
    }
    areas
}

/// What another entry answers on those of a case's texts that it takes.
fn told_by(entry: &Entry, case: &Case) -> (u64, u64) {
    let given = |text| case.entry.texts.iter().position(|given| given == text).map(|at| &case.texts[at][..]);
    let texts: Vec<&[u8]> = entry.texts.iter().filter_map(given).collect();
    let judgement = Evaluation::of(entry, &texts).judge(1_000, 16_384);
    (judgement.words, judgement.fits)
}

/// The number that a case expects; of `evaluate_with_sheet`, words and fits are those that the other entries tell.
fn expected(case: &Case, number: Number) -> u64 {
    let expected = &case.expected;
    let runs = case.entry == &EVALUATE_CHECKED && matches!(expected.refusal, 0 | 7..=12);
    match number {
        Number::Which => expected.which,
        Number::Place => expected.place,
        Number::Words if runs => told_by(&CHECK, case).0,
        Number::Fits if runs => told_by(&FITS, case).1,
        Number::Words => expected.words,
        Number::Fits => expected.fits,
        Number::Steps => expected.steps,
        Number::Length => expected.answer.len() as u64,
    }
}

/// Calls the entry on a case and holds all that it leaves to what is expected.
fn check(case: &Case) {
    let mut areas = areas(case);
    let mut numbers = vec![NO_NUMBER; case.entry.numbers.len()];
    let refusal = call(
        case.entry,
        Parameters {
            texts: case.texts.iter().map(|text| &text[..]).collect(),
            limit: case.limit,
            areas: areas.iter_mut().map(|area| &mut area[..]).collect(),
            numbers: numbers.iter_mut().collect(),
        },
    );
    assert_eq!(refusal, case.expected.refusal, "{}: refusal", case.id);
    if refusal == 1 {
        assert!(numbers.iter().all(|&number| number == NO_NUMBER), "{}: a number was touched", case.id);
        assert!(areas.iter().flatten().all(|&byte| byte == NOISE), "{}: an area was touched", case.id);
        return;
    }
    let wanted: Vec<u64> = case.entry.numbers.iter().map(|number| expected(case, *number)).collect();
    assert_eq!(numbers, wanted, "{}: {:?}", case.id, case.entry.number_names);
    let form = |text: &Vec<u8>| reader::judge(text).unwrap_or_default();
    let mut fronts = vec![Vec::new(); areas.len()];
    if refusal == 0 {
        let forms = case.texts.iter().map(form).flat_map(|form| [form.row_bytes(), form.strings]);
        forms.enumerate().for_each(|(at, front)| fronts[at] = front);
        if case.entry.evaluates() {
            *fronts.last_mut().unwrap() = case.expected.answer.clone();
        }
    }
    for ((area, mut front), name) in areas.into_iter().zip(fronts).zip(case.entry.areas) {
        front.resize(area.len(), 0);
        assert!(area == front, "{}: the bytes of the {}", case.id, name);
    }
}

/// All cases of an entry, of which there are to be so many.
fn check_all(entry: &'static Entry, least: usize) {
    let mut cases = of_entry(entry);
    cases.retain(|case| case.expected.stdout.is_none());
    assert!(cases.len() >= least, "only {} cases", cases.len());
    cases.iter().for_each(check);
}

#[test]
fn cases_of_evaluate() {
    check_all(&EVALUATE, 1_697);
}

#[test]
fn cases_of_check() {
    check_all(&CHECK, 724);
}

#[test]
fn cases_of_fits() {
    check_all(&FITS, 290);
}

#[test]
fn cases_of_evaluate_with_sheet() {
    check_all(&EVALUATE_CHECKED, 17);
}

#[test]
fn cases_of_the_program() {
    let mut seen = 0;
    for case in of_entry(&EVALUATE) {
        if let Some(expected) = &case.expected.stdout {
            let judgement = Evaluation::of(&EVALUATE, &[&case.texts[0], &case.texts[1]]).judge(1_000, 16_384);
            let mut printed = match judgement.refusal {
                0 => [&b"answer "[..], &judgement.text].concat(),
                refusal => format!("refused {}", refusal).into_bytes(),
            };
            printed.extend(format!("\nsteps {}\n", judgement.steps).bytes());
            assert_eq!(&printed, expected, "{}", case.id);
            seen += 1;
        }
    }
    assert!(seen >= 15, "only {} cases", seen);
}
