//! Makes a rule into something that is most often none.

use crate::random::Random;
use crate::rules::{operation, var};
use crate::values::{integer, member, string};
use writer::value::Value;

/// Names that are no operations, and some that are one of another number of operands.
#[rustfmt::skip]
const NAMES: [&str; 42] = [
    "", "VAR", "var ", "vars", "If", "iff", "==", "====", "=", "!=", "!!", "or", "And", "not", "-", "*", "/", "%", "++",
    "=<", "=>", "<>", "minus", "map", "filter", "all", "none", "missing", "after ", "notAfter", "not_before",
    "plustime", "plusTimes", "extractFromUvci", "dccDateOfbirth", "reduce\u{0}", "!", "if", "and", "var", "plusTime",
    "extractFromUVCI",
];

/// Changes one place of a rule.
pub fn misshape(random: &mut Random, rule: &mut Value) {
    let mut place = random.below(rule.count());
    let chosen = value_at(rule, &mut place).expect("a place within the rule");
    if random.chance(40) {
        *chosen = replacement(random, chosen.clone());
        return;
    }
    match chosen {
        Value::Object(members) => change_object(random, members),
        Value::Array(items) => change_operands(random, items),
        Value::String(text) if random.chance(20) => text.make_ascii_uppercase(),
        Value::String(text) => {
            let odd: &[u8] = random.pick(&[
                b".", b"a.", b".a", b"a..b", b"..", b"minute", b"years", b"Day", b"", b"second", b"month ", b"week",
            ]);
            *text = odd.to_vec();
        }
        _ => *chosen = replacement(random, chosen.clone()),
    }
}

/// The value at a place, counted in the order of the text.
fn value_at<'a>(value: &'a mut Value, place: &mut usize) -> Option<&'a mut Value> {
    if *place == 0 {
        return Some(value);
    }
    *place -= 1;
    match value {
        Value::Array(items) => items.iter_mut().find_map(|item| value_at(item, place)),
        Value::Object(members) => members.iter_mut().find_map(|(_, content)| value_at(content, place)),
        _ => None,
    }
}

/// Something else in place of a value.
fn replacement(random: &mut Random, value: Value) -> Value {
    match random.below(10) {
        0..=2 => Value::Null,
        3 => Value::Object(Vec::new()),
        4 => Value::Object(vec![member("a", integer(1))]),
        5 => Value::Array(vec![value]),
        6 => Value::Array(vec![Value::Null]),
        7 => integer(random.below(3) as i64),
        8 => string(random.pick(&["day", "a", "a..b", "."])),
        _ => operation("!", vec![value]),
    }
}

fn change_object(random: &mut Random, members: &mut Vec<(Vec<u8>, Value)>) {
    let name = random.pick(&NAMES).as_bytes().to_vec();
    match random.below(7) {
        0 => members.clear(),
        1 if members.iter().all(|(other, _)| *other != name) => {
            let at = random.below(members.len() + 1);
            members.insert(at, (name, Value::Array(vec![integer(1)])));
        }
        2 => {
            // An operand without its array.
            for (_, content) in members.iter_mut() {
                if let Value::Array(items) = content {
                    *content = items.pop().unwrap_or(Value::Null);
                }
            }
        }
        3 => members.iter_mut().for_each(|(_, content)| *content = Value::Array(vec![content.clone()])),
        4 => members.iter_mut().for_each(|(name, _)| name.make_ascii_uppercase()),
        _ => members.iter_mut().take(1).for_each(|(old, _)| *old = name.clone()),
    }
}

fn change_operands(random: &mut Random, items: &mut Vec<Value>) {
    match random.below(5) {
        0 => drop(items.pop()),
        1 if !items.is_empty() => drop(items.remove(0)),
        2 => items.push(integer(1)),
        3 => items.insert(0, var("a")),
        _ => {
            let at = random.below(items.len() + 1);
            items.insert(at, Value::Null);
        }
    }
}
