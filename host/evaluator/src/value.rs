//! Values. An array or object is shared by all that hold it, so that one of 2^300 parts takes no more room than the steps
//! that made it.

use crate::form::{Content, Row};
use std::rc::Rc;
use writer::value::Value as Unshared;

#[derive(Clone, Debug)]
pub enum Value {
    Null,
    Boolean(bool),
    Integer(i64),
    String(Rc<[u8]>),
    /// Milliseconds from 1970-01-01.
    Instant(i64),
    Array(Rc<[Value]>),
    Object(Rc<[Member]>),
}

/// A name and a content.
pub type Member = (Rc<[u8]>, Value);

#[derive(Clone, Copy, Debug, PartialEq, Eq)]
pub enum Truth {
    Truthy,
    Falsy,
    Neither,
}

impl Value {
    pub fn of_row(row: Row) -> Value {
        match row.content() {
            Content::Null => Value::Null,
            Content::Boolean(boolean) => Value::Boolean(boolean),
            Content::Integer(integer) => Value::Integer(integer),
            Content::String(bytes) => Value::String(bytes.into()),
            Content::Array => Value::Array(row.parts().map(Value::of_row).collect()),
            Content::Object => {
                Value::Object(row.parts().map(|part| (part.name().into(), Value::of_row(part))).collect())
            }
        }
    }

    pub fn truth(&self) -> Truth {
        let is_falsy = match self {
            Value::Instant(_) => return Truth::Neither,
            Value::Null => true,
            Value::Boolean(boolean) => !boolean,
            Value::Integer(integer) => *integer == 0,
            Value::String(bytes) => bytes.is_empty(),
            Value::Array(items) => items.is_empty(),
            Value::Object(members) => members.is_empty(),
        };
        if is_falsy {
            Truth::Falsy
        } else {
            Truth::Truthy
        }
    }

    pub fn is_scalar(&self) -> bool {
        matches!(self, Value::Null | Value::Boolean(_) | Value::Integer(_) | Value::String(_))
    }

    /// Equality of scalars, by kind and content. What is no scalar equals nothing.
    pub fn equals(&self, other: &Value) -> bool {
        match (self, other) {
            (Value::Null, Value::Null) => true,
            (Value::Boolean(one), Value::Boolean(other)) => one == other,
            (Value::Integer(one), Value::Integer(other)) => one == other,
            (Value::String(one), Value::String(other)) => one == other,
            _ => false,
        }
    }

    /// What a fragment of a path leads to, null if nowhere.
    pub fn part(&self, fragment: &[u8]) -> Value {
        let found = match self {
            Value::Object(members) => members.iter().find(|(name, _)| **name == *fragment).map(|(_, content)| content),
            Value::Array(items) => index(fragment).and_then(|index| items.get(index)),
            _ => None,
        };
        found.cloned().unwrap_or(Value::Null)
    }

    /// The same with nothing shared, for the independent writer; None if it is far larger than any answer.
    pub fn unshared(&self) -> Option<Unshared> {
        Budget { values: 2_000, bytes: 40_000 }.unshared(self, 40)
    }
}

impl From<&Unshared> for Value {
    fn from(value: &Unshared) -> Value {
        match value {
            Unshared::Null => Value::Null,
            Unshared::Boolean(boolean) => Value::Boolean(*boolean),
            Unshared::Integer(integer) => Value::Integer(i64::try_from(*integer).expect("an integer of a text")),
            Unshared::String(bytes) => Value::String(bytes[..].into()),
            Unshared::Instant(ms) => Value::Instant(*ms),
            Unshared::Array(items) => Value::Array(items.iter().map(Value::from).collect()),
            Unshared::Object(members) => {
                Value::Object(members.iter().map(|(name, content)| (name[..].into(), content.into())).collect())
            }
        }
    }
}

/// The index that a fragment is: 0, or digits without a leading zero. One with too many digits is past every end.
fn index(fragment: &[u8]) -> Option<usize> {
    let is_index = fragment == b"0" || fragment[0] != b'0' && fragment.iter().all(u8::is_ascii_digit);
    let digits = Some(fragment).filter(|_| is_index)?;
    Some(std::str::from_utf8(digits).ok()?.parse().unwrap_or(usize::MAX))
}

/// What an unshared value may still have, more than any answer has: the limits are left to the writer.
struct Budget {
    values: usize,
    bytes: usize,
}

impl Budget {
    fn unshared(&mut self, value: &Value, nesting: usize) -> Option<Unshared> {
        self.values = self.values.checked_sub(1)?;
        Some(match value {
            Value::Null => Unshared::Null,
            Value::Boolean(boolean) => Unshared::Boolean(*boolean),
            Value::Integer(integer) => Unshared::Integer((*integer).into()),
            Value::String(bytes) => Unshared::String(self.copy(bytes)?),
            Value::Instant(ms) => Unshared::Instant(*ms),
            Value::Array(items) => {
                let deeper = nesting.checked_sub(1)?;
                Unshared::Array(items.iter().map(|item| self.unshared(item, deeper)).collect::<Option<_>>()?)
            }
            Value::Object(members) => {
                let deeper = nesting.checked_sub(1)?;
                let member = |(name, content): &Member| Some((self.copy(name)?, self.unshared(content, deeper)?));
                Unshared::Object(members.iter().map(member).collect::<Option<_>>()?)
            }
        })
    }

    fn copy(&mut self, bytes: &[u8]) -> Option<Vec<u8>> {
        self.bytes = self.bytes.checked_sub(bytes.len())?;
        Some(bytes.to_vec())
    }
}

#[cfg(test)]
mod tests {
    use super::*;

    /// What a path leads to in a record.
    fn at(record: &str, fragments: &[&str]) -> String {
        let form = reader::judge(record.as_bytes()).unwrap();
        let value = fragments.iter().fold(Value::of_row(Row::root(&form)), |value, name| value.part(name.as_bytes()));
        String::from_utf8(value.unshared().unwrap().text()).unwrap()
    }

    #[test]
    fn values_of_texts() {
        for text in ["null", "-9007199254740991", "[]", "{}", r#"{"a":[true,{"":"x"},[[]]],"b":{"c":null},"d":false}"#]
        {
            assert_eq!(at(text, &[]), text);
        }
    }

    #[test]
    fn fragments_lead_to_members() {
        let record = r#"{"a":{"b":1,"":2,"0":3},"ab":4}"#;
        for (path, expected) in [
            (&["ab"][..], "4"),
            (&["a", "b"], "1"),
            (&["a", "0"], "3"),
            (&["a", "1"], "null"),
            (&["b"], "null"),
            (&["A"], "null"),
            (&["a", "b", "c"], "null"),
            (&["c", "d"], "null"),
        ] {
            assert_eq!(at(record, path), expected, "{:?}", path);
        }
    }

    #[test]
    fn fragments_lead_to_items() {
        let record = "[0,10,20,30,40,50,60,70,80,90,100]";
        for (fragment, expected) in [
            ("0", "0"),
            ("1", "10"),
            ("10", "100"),
            ("11", "null"),
            ("00", "null"),
            ("01", "null"),
            ("-1", "null"),
            ("-0", "null"),
            ("+1", "null"),
            ("1 ", "null"),
            ("1e0", "null"),
            ("length", "null"),
            ("\u{661}", "null"),
            ("4294967296", "null"),
            ("18446744073709551616", "null"),
            ("18446744073709551617", "null"),
            ("340282366920938463463374607431768211456", "null"),
        ] {
            assert_eq!(at(record, &[fragment]), expected, "{}", fragment);
        }
    }

    #[test]
    fn towers_end() {
        let mut tower = Value::Array(Rc::new([]));
        for _ in 0..9 {
            tower = Value::Array(Rc::new([tower.clone(), tower]));
        }
        assert_eq!(tower.unshared().unwrap().count(), 1_023);
        for _ in 0..300 {
            tower = Value::Array(Rc::new([tower.clone(), tower]));
        }
        assert!(tower.unshared().is_none());
    }
}
