//! The shape of a sheet, and what fits it.

use super::{Slip, Wrong};
use evaluator::dates::{self, Refusal};
use writer::value::Value;

pub const WORDS: [&str; 10] =
    ["null", "boolean", "integer", "string", "date", "day", "integers", "strings", "array", "object"];
pub const INSTANT: &str = "instant";

pub type Members = [(Vec<u8>, Value)];

/// The listed words of a member.
pub fn listed(content: &Value) -> Vec<&'static str> {
    let spelled = |word: &str| match content {
        Value::String(bare) => bare.eq_ignore_ascii_case(word.as_bytes()),
        _ => content
            .parts()
            .any(|item| matches!(item, Value::String(spelled) if spelled.eq_ignore_ascii_case(word.as_bytes()))),
    };
    WORDS.into_iter().chain([INSTANT]).filter(|word| spelled(word)).collect()
}

impl Wrong {
    /// The members of a sheet, if the value is one.
    pub fn members<'a>(&self, sheet: &'a Value) -> Option<&'a Members> {
        let members: &Members = match sheet {
            Value::Object(members) => members,
            Value::Array(items) if items.is_empty() && self.is(Slip::ArraySheet) => &[],
            _ => return None,
        };
        let most = match self.slip {
            Slip::Members257 => 257,
            Slip::Members255 => 255,
            _ => 256,
        };
        let checked = match self.slip {
            Slip::LastMemberUnchecked => members.len().saturating_sub(1),
            _ => members.len(),
        };
        let empty = members.is_empty() && self.is(Slip::EmptySheetRefused);
        let all = members[..checked].iter().all(|(name, content)| self.name(name) && self.words(content));
        Some(members).filter(|_| !empty && members.len() <= most && all)
    }

    fn name(&self, name: &[u8]) -> bool {
        let begins = name.first() == Some(&b'.') && !self.is(Slip::DotAtBegin);
        let ends = name.last() == Some(&b'.') && !self.is(Slip::DotAtEnd);
        let doubles = name.windows(2).any(|two| two == b"..") && !self.is(Slip::DoubleDot);
        !(begins || ends || doubles) && (!name.is_empty() || self.is(Slip::EmptyName))
    }

    fn words(&self, content: &Value) -> bool {
        let items = match content {
            Value::Array(items) => &items[..],
            bare if self.is(Slip::BareWord) => std::slice::from_ref(bare),
            _ => return false,
        };
        let checked = if self.is(Slip::FirstWordOnly) { items.len().min(1) } else { items.len() };
        let items = &items[..checked];
        let again = |at: usize| items[..at].contains(&items[at]) && !self.is(Slip::RepeatedWord);
        let all = (0..items.len()).all(|at| self.word(&items[at]) && !again(at));
        all && (!items.is_empty() || self.is(Slip::NoWords))
    }

    fn word(&self, item: &Value) -> bool {
        let spelled = match item {
            Value::String(spelled) => spelled,
            _ => return self.is(Slip::NotAString),
        };
        let is_word = |word: &&str| match self.slip {
            Slip::WordsInAnyCase => word.as_bytes().eq_ignore_ascii_case(spelled),
            _ => word.as_bytes() == &spelled[..],
        };
        WORDS.iter().any(is_word)
            || self.is(Slip::UnknownWord)
            || self.is(Slip::InstantListed) && spelled == INSTANT.as_bytes()
    }

    /// Whether a record fits.
    pub fn fits(&self, members: &Members, record: &Value) -> bool {
        let looked = if self.is(Slip::FirstMemberOnly) { members.len().min(1) } else { members.len() };
        let fits = |(name, content): &(Vec<u8>, Value)| {
            let value = match (self.at(record, name), self.slip) {
                (None, Slip::MissingIsNoValue) => return false,
                (None, Slip::MissingFits) => return true,
                (None, _) => &Value::Null,
                (Some(value), _) => value,
            };
            let words = listed(content);
            match self.slip {
                Slip::EveryWord => words.iter().all(|word| self.belongs(value, word)),
                Slip::OneWordIsLooked => words.first().map_or(false, |word| self.belongs(value, word)),
                _ => words.iter().any(|word| self.belongs(value, word)),
            }
        };
        match self.slip {
            Slip::AlwaysFits => true,
            Slip::NeverFits => false,
            Slip::NoObjectNoFit if !matches!(record, Value::Object(_)) => members.is_empty(),
            _ => members[..looked].iter().all(fits),
        }
    }

    fn at<'a>(&self, record: &'a Value, path: &[u8]) -> Option<&'a Value> {
        let mut fragments = path.split(|&byte| byte == b'.');
        if self.is(Slip::FirstFragmentOnly) {
            return self.part(record, fragments.next()?);
        }
        fragments.try_fold(record, |value, fragment| self.part(value, fragment))
    }

    fn part<'a>(&self, value: &'a Value, fragment: &[u8]) -> Option<&'a Value> {
        match value {
            Value::Object(members) => members.iter().find(|(name, _)| name == fragment).map(|(_, part)| part),
            Value::Array(_) if self.is(Slip::NoIndexes) => None,
            Value::Array(items) => {
                let leads = fragment.len() > 1 && fragment[0] == b'0' && !self.is(Slip::LeadingZeros);
                let digits = Some(fragment).filter(|digits| !leads && digits.iter().all(u8::is_ascii_digit))?;
                items.get(std::str::from_utf8(digits).ok()?.parse::<usize>().ok()?)
            }
            _ => None,
        }
    }

    fn belongs(&self, value: &Value, word: &str) -> bool {
        match (value, word) {
            (Value::Null, "null") | (Value::Boolean(_), "boolean") | (Value::Integer(_), "integer") => true,
            (Value::Null, "object") => self.is(Slip::NullIsObject),
            (Value::Boolean(_), "integer") => self.is(Slip::BooleanIsInteger),
            (Value::Object(_), "object") => true,
            (Value::String(text), "string") => !(self.is(Slip::DateNotString) && dates::read_date(text).is_ok()),
            (Value::String(text), "date") => match dates::read_date(text) {
                Ok(_) => !(self.is(Slip::DayNotDate) && dates::read_day(text).is_ok()),
                Err(Refusal::OutOfRange) => self.is(Slip::DateOutOfRange) || self.is(Slip::StringIsDate),
                Err(Refusal::NoDate) => self.is(Slip::StringIsDate),
            },
            (Value::String(text), "day") => {
                dates::read_day(text).is_ok() || self.is(Slip::DayTakesTimes) && dates::read_date(text).is_ok()
            }
            (Value::Array(items), "array") => {
                !(self.is(Slip::IntegersNotArrays)
                    && !items.is_empty()
                    && items.iter().all(|item| matches!(item, Value::Integer(_))))
            }
            (Value::Array(items), "integers") => {
                let empty = items.is_empty() && self.is(Slip::EmptyNotIntegers);
                !empty && self.looked(items).iter().all(|item| matches!(item, Value::Integer(_)))
            }
            (Value::Array(items), "strings") => {
                let empty = items.is_empty() && self.is(Slip::EmptyNotStrings);
                !empty && self.looked(items).iter().all(|item| matches!(item, Value::String(_)))
            }
            _ => false,
        }
    }

    /// The items that are looked at.
    fn looked<'a>(&self, items: &'a [Value]) -> &'a [Value] {
        match (self.slip, items) {
            (Slip::FirstItemOnly, [first, ..]) => std::slice::from_ref(first),
            (Slip::LastItemOnly, [.., last]) => std::slice::from_ref(last),
            _ => items,
        }
    }
}
