//! What is promised of every answer, seen from outside: a rule that was accepted, on a record that fits, never ends with
//! 7 or 8, and what is written belongs to a word that was told.

use evaluator::dates;
use evaluator::form::Row;
use evaluator::run::{NO_DATE, WRONG_KIND};
use evaluator::value::Value;
use evaluator::words::{Word, Words, INSTANT};

/// What an evaluation with a sheet answered: its refusal, words and fits, and the text that it left.
pub struct Answer<'a> {
    pub refusal: u32,
    pub words: u64,
    pub fits: u64,
    pub text: &'a [u8],
}

/// What is broken, if anything is.
pub fn broken(answer: &Answer) -> Option<String> {
    if answer.words == 0 || answer.fits == 0 {
        return None;
    }
    let Answer { refusal, words, text, .. } = *answer;
    if [WRONG_KIND, NO_DATE].contains(&refusal) {
        return Some(format!("accepted with words {} on a record that fits, and refused with {}", words, refusal));
    }
    let belongs = refusal != 0 || text_belongs(text, Words(words));
    Some(format!("what is written belongs to none of the words {}", words)).filter(|_| !belongs)
}

/// A text is that of a value which belongs to one of the words; an instant's text is a date of 24 bytes.
fn text_belongs(text: &[u8], words: Words) -> bool {
    let form = match reader::judge(text) {
        Ok(form) => form,
        Err(_) => return false,
    };
    let value = Value::of_row(Row::root(&form));
    let is_instant = match &value {
        Value::String(text) => dates::read_date(text).map_or(false, |ms| dates::text(ms).unwrap()[..] == text[..]),
        _ => false,
    };
    words.iter().any(|word: Word| if word == INSTANT { is_instant } else { word.holds(&value) })
}

#[cfg(test)]
mod tests {
    use super::*;

    #[test]
    fn promises() {
        let is_broken = |refusal, words, fits, text: &str| {
            broken(&Answer { refusal, words, fits, text: text.as_bytes() }).is_some()
        };
        for (refusal, words, fits, text, expected) in [
            (0, 2, 1, "true", false),
            (0, 2, 1, "1", true),
            (0, 2, 0, "1", false),
            (0, 6, 1, "1", false),
            (7, 2, 1, "", true),
            (8, 2, 1, "", true),
            (7, 2, 0, "", false),
            (9, 2, 1, "", false),
            (12, 2, 1, "", false),
            (0, 1024, 1, "\"2020-03-02T00:00:00.000Z\"", false),
            (0, 1024, 1, "\"2020-03-02T00:00:00.0000Z\"", true),
            (0, 1024, 1, "\"2020-03-02\"", true),
            (0, 32, 1, "\"2020-03-02\"", false),
            (0, 64, 1, "[1,2]", false),
            (0, 64, 1, "[1,\"\"]", true),
            (0, 64, 1, "[]", false),
            (0, 128 + 1, 1, "null", false),
            (0, 512, 1, "{", true),
        ] {
            assert_eq!(is_broken(refusal, words, fits, text), expected, "{} {} {} {}", refusal, words, fits, text);
        }
    }
}
