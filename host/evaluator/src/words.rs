//! The words of sheets and of the kind check, and which values belong to each.

use crate::dates;
use crate::value::Value;

/// A word: its number in the order of the list below.
#[derive(Clone, Copy, Debug, PartialEq, Eq)]
pub struct Word(u32);

pub const NULL: Word = Word(0);
pub const BOOLEAN: Word = Word(1);
pub const INTEGER: Word = Word(2);
pub const STRING: Word = Word(3);
pub const DATE: Word = Word(4);
pub const DAY: Word = Word(5);
pub const INTEGERS: Word = Word(6);
pub const STRINGS: Word = Word(7);
pub const ARRAY: Word = Word(8);
pub const OBJECT: Word = Word(9);
/// A word of the check only.
pub const INSTANT: Word = Word(10);

/// Spelled, in their order.
pub const NAMES: [&str; 11] =
    ["null", "boolean", "integer", "string", "date", "day", "integers", "strings", "array", "object", "instant"];

impl Word {
    pub fn all() -> impl Iterator<Item = Word> {
        (0..NAMES.len() as u32).map(Word)
    }

    pub fn name(self) -> &'static str {
        NAMES[self.0 as usize]
    }

    /// The word of a sheet that is spelled so.
    pub fn of_sheet(spelled: &[u8]) -> Option<Word> {
        Word::all().find(|word| *word != INSTANT && word.name().as_bytes() == spelled)
    }

    /// It and those that it is as well.
    fn wider(self) -> Words {
        match self {
            DAY => words([DAY, DATE, STRING]),
            DATE => words([DATE, STRING]),
            INTEGERS => words([INTEGERS, ARRAY]),
            STRINGS => words([STRINGS, ARRAY]),
            other => words([other]),
        }
    }

    /// Whether a value, of a record or of evaluation, belongs to it.
    pub fn holds(self, value: &Value) -> bool {
        let all = |items: &[Value], word: Word| items.iter().all(|item| word.holds(item));
        match value {
            Value::Null => self == NULL,
            Value::Boolean(_) => self == BOOLEAN,
            Value::Integer(_) => self == INTEGER,
            Value::Instant(_) => self == INSTANT,
            Value::Object(_) => self == OBJECT,
            Value::String(text) => match self {
                DAY => dates::read_day(text).is_ok(),
                DATE => dates::read_date(text).is_ok(),
                other => other == STRING,
            },
            Value::Array(items) => match self {
                INTEGERS => all(items, INTEGER),
                STRINGS => all(items, STRING),
                other => other == ARRAY,
            },
        }
    }
}

/// A set of words, told as bits: the first word is 1, each further one twice as much.
#[derive(Clone, Copy, Debug, Default, PartialEq, Eq)]
pub struct Words(pub u64);

pub fn words<const N: usize>(words: [Word; N]) -> Words {
    words.into_iter().collect()
}

impl FromIterator<Word> for Words {
    fn from_iter<I: IntoIterator<Item = Word>>(words: I) -> Words {
        Words(words.into_iter().fold(0, |bits, word| bits | 1 << word.0))
    }
}

impl Words {
    pub fn has(self, word: Word) -> bool {
        self.0 >> word.0 & 1 == 1
    }

    pub fn iter(self) -> impl Iterator<Item = Word> {
        Word::all().filter(move |word| self.has(*word))
    }

    pub fn and(self, others: Words) -> Words {
        Words(self.0 | others.0)
    }

    /// Each passes: it or a wider one is allowed.
    pub fn pass(self, allowed: Words) -> bool {
        self.iter().all(|word| word.wider().0 & allowed.0 != 0)
    }

    /// A value belongs to one of them.
    pub fn hold(self, value: &Value) -> bool {
        self.iter().any(|word| word.holds(value))
    }
}

/// What a path that no sheet lists may lead to.
pub fn any_of_record() -> Words {
    words([NULL, BOOLEAN, INTEGER, STRING, ARRAY, OBJECT])
}

/// The same, and an instant.
pub fn any_value() -> Words {
    any_of_record().and(words([INSTANT]))
}

/// null, boolean, integer, string.
pub fn scalars() -> Words {
    words([NULL, BOOLEAN, INTEGER, STRING])
}

#[cfg(test)]
mod tests {
    use super::*;
    use crate::form::Row;

    #[test]
    fn bits() {
        for (word, bit) in [(NULL, 1), (STRING, 8), (DAY, 32), (ARRAY, 256), (INSTANT, 1024)] {
            assert_eq!(words([word]), Words(bit));
        }
        assert_eq!(any_of_record(), Words(1 + 2 + 4 + 8 + 256 + 512));
        assert_eq!(words([DAY, NULL, DAY]).iter().map(Word::name).collect::<Vec<_>>(), ["null", "day"]);
        assert_eq!((Word::of_sheet(b"integers"), Word::of_sheet(b"instant")), (Some(INTEGERS), None));
    }

    #[test]
    fn passing() {
        let passed = |word: Word| Word::all().filter(move |wide| words([word]).pass(words([*wide]))).map(Word::name);
        for (word, expected) in [
            (DAY, &["string", "date", "day"][..]),
            (DATE, &["string", "date"]),
            (STRING, &["string"]),
            (INTEGERS, &["integers", "array"]),
            (STRINGS, &["strings", "array"]),
            (ARRAY, &["array"]),
            (INSTANT, &["instant"]),
        ] {
            assert_eq!(passed(word).collect::<Vec<_>>(), expected);
        }
        assert!(words([DAY, NULL]).pass(scalars()) && !words([DAY, ARRAY]).pass(scalars()));
    }

    #[test]
    fn belonging() {
        for (text, expected) in [
            ("null", "null"),
            ("false", "boolean"),
            ("0", "integer"),
            ("\"\"", "string"),
            ("\"2020\"", "string date day"),
            ("\"2021-02-28\"", "string date day"),
            ("\"2021-02-29\"", "string"),
            ("\"2020-01-01T00:00:00Z\"", "string date"),
            ("\"0000-01-01T00:00:00+1\"", "string"),
            ("\"0000\"", "string date day"),
            ("[]", "integers strings array"),
            ("[1]", "integers array"),
            ("[1,\"\"]", "array"),
            ("[\"2020\",\"\"]", "strings array"),
            ("[null]", "array"),
            ("[[1]]", "array"),
            ("{}", "object"),
        ] {
            let form = reader::judge(text.as_bytes()).unwrap();
            let value = Value::of_row(Row::root(&form));
            let held: Vec<&str> = Word::all().filter(|word| word.holds(&value)).map(Word::name).collect();
            assert_eq!(held.join(" "), expected, "{}", text);
        }
        let instant = Value::Instant(0);
        assert_eq!(Word::all().filter(|word| word.holds(&instant)).collect::<Vec<_>>(), [INSTANT]);
        assert!(words([ARRAY]).hold(&Value::Array([instant.clone()].into())));
        assert!(!words([STRINGS, INTEGERS]).hold(&Value::Array([instant].into())));
    }
}
