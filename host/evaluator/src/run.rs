//! The run of a rule on a record.
//!
//! A run knows no limit; it stops where it has begun more steps than any limit admits. That a limit would have stopped it
//! before is seen from the number of its steps.

use crate::dates;
use crate::rule::{Body, Operation, Order, Rule};
use crate::value::{Truth, Value};
use std::rc::Rc;

pub const WRONG_KIND: u32 = 7;
pub const NO_DATE: u32 = 8;
pub const OUT_OF_RANGE: u32 = 9;

const MAX_INTEGER: i64 = reader::MAX_INTEGER as i64;

/// How a run ends.
#[derive(Clone, Debug)]
pub enum End {
    Value(Value),
    /// Refused with 7, 8 or 9, by the rule of this name.
    Refused(u32, &'static str),
    /// Stopped after `most` steps.
    Unfinished,
}

#[derive(Clone, Debug)]
pub struct Run {
    /// The rule that each step began, in order: its row and its name.
    pub steps: Vec<(usize, &'static str)>,
    pub end: End,
}

impl Run {
    /// Runs a rule on a record, for at most so many steps.
    pub fn of(rule: &Rule, record: &Value, most: usize) -> Run {
        let mut runner = Runner { steps: Vec::new(), most };
        let end = match runner.evaluate(rule, record) {
            Ok(value) => End::Value(value),
            Err(end) => end,
        };
        Run { steps: runner.steps, end }
    }
}

struct Runner {
    steps: Vec<(usize, &'static str)>,
    most: usize,
}

impl Runner {
    fn evaluate(&mut self, rule: &Rule, context: &Value) -> Result<Value, End> {
        if self.steps.len() == self.most {
            return Err(End::Unfinished);
        }
        self.steps.push((rule.row, rule.name));
        match &rule.body {
            Body::Literal(value) => Ok(value.clone()),
            Body::Array(items) => self.evaluate_all(items, context).map(|values| Value::Array(values.into())),
            Body::Var(fragments) => Ok(fragments.iter().fold(context.clone(), |value, fragment| value.part(fragment))),
            Body::Operation(operation, operands) => {
                let refused = |refusal| End::Refused(refusal, rule.name);
                match (operation, &operands[..]) {
                    (Operation::If, [guard, then, otherwise]) => {
                        let is_truthy = self.evaluate(guard, context)?.truth() == Truth::Truthy;
                        self.evaluate(if is_truthy { then } else { otherwise }, context)
                    }
                    (Operation::And, _) => {
                        let mut last = Value::Null;
                        for operand in operands {
                            last = self.evaluate(operand, context)?;
                            match last.truth() {
                                Truth::Truthy => {}
                                Truth::Falsy => break,
                                Truth::Neither => return Err(refused(WRONG_KIND)),
                            }
                        }
                        Ok(last)
                    }
                    (Operation::Reduce, [operand, lambda, initial]) => {
                        let operand = self.evaluate(operand, context)?;
                        let initial = self.evaluate(initial, context)?;
                        let items = match operand {
                            Value::Array(items) => items,
                            _ => return Err(refused(WRONG_KIND)),
                        };
                        let fold = |accumulator, item: &Value| {
                            self.evaluate(lambda, &lambda_context(item.clone(), accumulator))
                        };
                        items.iter().try_fold(initial, fold)
                    }
                    _ => {
                        let values = self.evaluate_all(operands, context)?;
                        operate(*operation, &values).map_err(refused)
                    }
                }
            }
        }
    }

    fn evaluate_all(&mut self, rules: &[Rule], context: &Value) -> Result<Vec<Value>, End> {
        rules.iter().map(|rule| self.evaluate(rule, context)).collect()
    }
}

fn lambda_context(current: Value, accumulator: Value) -> Value {
    let named = |name: &[u8], content| (name.into(), content);
    Value::Object(Rc::new([named(b"current", current), named(b"accumulator", accumulator)]))
}

/// The operations that evaluate all operands first.
fn operate(operation: Operation, operands: &[Value]) -> Result<Value, u32> {
    match (operation, operands) {
        (Operation::Equal, [one, other]) if one.is_scalar() && other.is_scalar() => {
            Ok(Value::Boolean(one.equals(other)))
        }
        (Operation::In, [one, Value::Array(items)]) if one.is_scalar() => {
            Ok(Value::Boolean(items.iter().any(|item| one.equals(item))))
        }
        (Operation::Plus, [Value::Integer(one), Value::Integer(other)]) => match one + other {
            sum if (-MAX_INTEGER..=MAX_INTEGER).contains(&sum) => Ok(Value::Integer(sum)),
            _ => Err(OUT_OF_RANGE),
        },
        (Operation::Compare(order), _) => compare(order, operands, |operand| match operand {
            Value::Integer(integer) => Some(*integer),
            _ => None,
        }),
        (Operation::CompareDates(order), _) => compare(order, operands, |operand| match operand {
            Value::Instant(ms) => Some(*ms),
            _ => None,
        }),
        (Operation::Not, [operand]) => match operand.truth() {
            Truth::Truthy => Ok(Value::Boolean(false)),
            Truth::Falsy => Ok(Value::Boolean(true)),
            Truth::Neither => Err(WRONG_KIND),
        },
        (Operation::PlusTime(amount, unit), [Value::String(text)]) => {
            dates::read_date(text).and_then(|ms| dates::shift(ms, amount, unit)).map_or_else(refused, instant)
        }
        (Operation::DateOfBirth, [Value::String(text)]) => dates::read_day(text).map_or_else(refused, instant),
        (Operation::ExtractFromUvci(_), [Value::Null]) => Ok(Value::Null),
        (Operation::ExtractFromUvci(index), [Value::String(text)]) => Ok(fragment(text, index)),
        _ => Err(WRONG_KIND),
    }
}

fn instant(ms: i64) -> Result<Value, u32> {
    Ok(Value::Instant(ms))
}

fn refused(refusal: dates::Refusal) -> Result<Value, u32> {
    Err(refusal.number())
}

/// Each neighbouring pair holds; every operand is to be a number of the wanted kind.
fn compare(order: Order, operands: &[Value], number: impl Fn(&Value) -> Option<i64>) -> Result<Value, u32> {
    let numbers = operands.iter().map(number).collect::<Option<Vec<_>>>().ok_or(WRONG_KIND)?;
    let holds = |pair: &[i64]| match order {
        Order::Greater => pair[0] > pair[1],
        Order::Less => pair[0] < pair[1],
        Order::GreaterOrEqual => pair[0] >= pair[1],
        Order::LessOrEqual => pair[0] <= pair[1],
    };
    Ok(Value::Boolean(numbers.windows(2).all(holds)))
}

/// A fragment of a UVCI, or null.
fn fragment(text: &[u8], index: i64) -> Value {
    let fragments: Vec<&[u8]> = text.split(|byte| b"/#:".contains(byte)).collect();
    let fragments = fragments.strip_prefix(&[&b"URN"[..], b"UVCI"]).unwrap_or(&fragments);
    let found = usize::try_from(index).ok().and_then(|index| fragments.get(index));
    found.map_or(Value::Null, |&fragment| Value::String(fragment.into()))
}
