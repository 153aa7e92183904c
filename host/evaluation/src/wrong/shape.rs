//! The shape of a rule.

use super::{Slip, Wrong};
use writer::value::Value;

#[rustfmt::skip]
pub const OPERATIONS: [&str; 19] = [
    "var", "if", "reduce", "===", "in", "+", "and", ">", "<", ">=", "<=", "after", "before", "not-after", "not-before",
    "!", "dccDateOfBirth", "plusTime", "extractFromUVCI",
];

impl Wrong {
    /// The operation of a name.
    pub fn operation(&self, name: &[u8]) -> Option<&'static str> {
        let is_named = |operation: &&str| match self.slip {
            Slip::NamesInAnyCase => operation.as_bytes().eq_ignore_ascii_case(name),
            _ => operation.as_bytes() == name,
        };
        OPERATIONS.into_iter().find(is_named)
    }

    pub fn shape(&self, rule: &Value) -> bool {
        match rule {
            Value::Null => self.is(Slip::NullIsRule),
            Value::Array(items) => {
                items.iter().all(|item| self.shape(item)) && !(items.is_empty() && self.is(Slip::EmptyArrayRefused))
            }
            Value::Object(members) => match &members[..] {
                [] => self.is(Slip::EmptyObjectIsRule),
                [(name, content)] => self.operation(name).map_or(false, |name| self.member(name, content)),
                [(name, content), ..] => {
                    self.is(Slip::FirstMemberCounts)
                        && self.operation(name).map_or(false, |name| self.member(name, content))
                }
            },
            _ => true,
        }
    }

    fn member(&self, name: &str, content: &Value) -> bool {
        let operands = match content {
            _ if name == "var" => return self.path(content),
            Value::Array(operands) => &operands[..],
            bare if self.is(Slip::BareOperand) => std::slice::from_ref(bare),
            _ => return false,
        };
        match (name, operands) {
            ("plusTime", [text, amount, unit]) => {
                (self.shape(text) || self.is(Slip::DateOperandUnchecked)) && self.amount(amount) && self.unit(unit)
            }
            ("extractFromUVCI", [text, index]) => self.shape(text) && self.index(index),
            ("plusTime" | "extractFromUVCI", _) => false,
            _ => {
                let (least, most) = self.counts(name);
                let unchecked = match (self.slip, name) {
                    (Slip::OtherwiseUnchecked, "if") => Some(2),
                    (Slip::LambdaUnchecked, "reduce") => Some(1),
                    (Slip::LastOperandUnchecked, "and") => operands.len().checked_sub(1),
                    _ => None,
                };
                let mut numbered = operands.iter().enumerate();
                (least..=most).contains(&operands.len())
                    && numbered.all(|(at, operand)| Some(at) == unchecked || self.shape(operand))
            }
        }
    }

    fn counts(&self, name: &str) -> (usize, usize) {
        match (name, self.slip) {
            ("if", Slip::IfOfTwo) | ("reduce", Slip::ReduceOfTwo) => (2, 3),
            ("if", Slip::IfOfFour) => (3, 4),
            ("if" | "reduce", _) => (3, 3),
            ("===", Slip::EqualOfThree) | ("in", Slip::InOfThree) | ("+", Slip::PlusOfThree) => (2, 3),
            ("===" | "in" | "+", _) => (2, 2),
            ("and", Slip::AndOfOne) => (1, usize::MAX),
            ("and", Slip::AndOfThree) => (2, 3),
            ("and", _) => (2, usize::MAX),
            ("!", Slip::NotOfTwo) => (1, 2),
            ("!", Slip::NotOfNone) => (0, 1),
            ("!" | "dccDateOfBirth", _) => (1, 1),
            (_, Slip::CompareOfOne) => (1, 3),
            (_, Slip::CompareOfTwo) => (2, 2),
            (_, Slip::CompareOfFour) => (2, 4),
            _ => (2, 3),
        }
    }

    fn path(&self, content: &Value) -> bool {
        let path = match content {
            Value::String(path) => path,
            Value::Array(items) if self.is(Slip::VarInArray) => return matches!(items[..], [Value::String(_)]),
            Value::Integer(_) => return self.is(Slip::VarOfInteger),
            _ => return false,
        };
        let begins = path.first() == Some(&b'.') && !self.is(Slip::DotAtBegin);
        let ends = path.last() == Some(&b'.') && !self.is(Slip::DotAtEnd);
        let doubles = path.windows(2).any(|two| two == b"..") && !self.is(Slip::DoubleDot);
        let is_empty = path.is_empty() && self.is(Slip::EmptyPathRefused);
        !(begins || ends || doubles || is_empty)
    }

    fn amount(&self, amount: &Value) -> bool {
        match amount {
            Value::Integer(_) => true,
            Value::Boolean(_) | Value::String(_) => self.is(Slip::AnyAmount) || self.is(Slip::AmountOfRule),
            _ => self.is(Slip::AmountOfRule) && self.shape(amount),
        }
    }

    fn unit(&self, unit: &Value) -> bool {
        let units = [&b"year"[..], b"month", b"day", b"hour"];
        match unit {
            Value::String(_) if self.is(Slip::AnyUnit) => true,
            Value::String(word) if self.is(Slip::UnitInAnyCase) => units.contains(&&word.to_ascii_lowercase()[..]),
            Value::String(word) => units.contains(&&word[..]),
            _ => false,
        }
    }

    fn index(&self, index: &Value) -> bool {
        match index {
            Value::Integer(integer) => *integer >= 0 || !self.is(Slip::NegativeIndexRefused),
            Value::Boolean(_) | Value::String(_) => self.is(Slip::AnyIndex),
            _ => false,
        }
    }
}
