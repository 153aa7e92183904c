//! The independent writer on the cases of `vectors/`, and against the independent reader.

use crate::generate;
use crate::layout::{is_readable, read};
use crate::random::Random;
use crate::value::Value;
use reader::cases::{self, Case};

fn text<'a>(case: &'a Case, name: &str) -> Option<&'a [u8]> {
    case.texts.iter().find(|(given, _)| *given == name).map(|(_, text)| &text[..])
}

/// The value of a rule that only repeats what was read: a literal, `{"var":""}`, or an array of such.
fn repeated(rule: &Value, record: &Value) -> Option<Value> {
    match rule {
        Value::Null => None,
        Value::Array(items) => items.iter().map(|item| repeated(item, record)).collect::<Option<_>>().map(Value::Array),
        Value::Object(members) => {
            let whole = [(b"var".to_vec(), Value::String(Vec::new()))];
            Some(record.clone()).filter(|_| members[..] == whole)
        }
        _ => Some(rule.clone()),
    }
}

#[test]
fn answers_of_rules_that_repeat() {
    let (mut written, mut refused) = (0, 0);
    for case in cases::all().iter().filter(|case| case.entry == "evaluate") {
        let rule = text(case, "rule").and_then(read);
        let record = text(case, "record").and_then(read);
        let value = rule.zip(record).and_then(|(rule, record)| repeated(&rule, &record));
        let (value, refusal) = match (value, case.refusal()) {
            (Some(value), Some(refusal @ (0 | 11 | 12))) => (value, refusal),
            _ => continue,
        };
        let expected = if refusal == 0 { Ok(case.expected_text("answer").unwrap()) } else { Err(refusal) };
        assert_eq!(value.written(case.out), expected, "{}", case.id);
        *(if refusal == 0 { &mut written } else { &mut refused }) += 1;
    }
    assert!(written >= 37 && refused >= 8, "only {} written and {} refused", written, refused);
}

/// An instant's text reads as a string, which has the same text.
#[test]
fn answers_read_and_written_again() {
    let mut seen = 0;
    for case in cases::all() {
        if let Some(answer) = case.expected_text("answer") {
            let value = read(&answer).unwrap_or_else(|| panic!("{}: the answer does not read", case.id));
            assert_eq!(value.written(case.out), Ok(answer), "{}", case.id);
            seen += 1;
        }
    }
    assert!(seen >= 885, "only {} answers in vectors/", seen);
}

#[test]
fn read_texts_written() {
    let mut seen = 0;
    for case in cases::all() {
        if let Some(written) = case.expected_text("written") {
            let value = read(text(&case, "text").unwrap()).unwrap();
            assert_eq!(value.text(), written, "{}", case.id);
            seen += 1;
        }
    }
    assert!(seen >= 57, "only {} texts in vectors/", seen);
}

/// What a text can read as is read back from its own text.
#[test]
fn texts_read_as_their_values() {
    let mut random = Random::new(1);
    let mut seen = 0;
    for _ in 0..20_000 {
        let value = if random.chance(50) { generate::record(&mut random) } else { generate::ordinary(&mut random) };
        let value_read = read(&value.text());
        if is_readable(&value) && value.written(usize::MAX).is_ok() {
            assert!(value_read.as_ref() == Some(&value), "{:?}", value);
            seen += 1;
        } else if value_read.is_some() {
            // An instant reads as a string; an integer beyond the limits and bytes that are no UTF-8 do not read.
            assert!(value.has_instants(), "{:?}", value);
        }
    }
    assert!(seen >= 12_000, "only {} values", seen);
}
