//! One operation on few values, so that equal ones meet, and each kind stands in each place.

use crate::limits::Pair;
use crate::random::Random;
use crate::rules::{operation, var, DATE_WORDS, SCALARS, SIGNS};
use crate::values::{integer, member, string, Kind, KINDS, MAX_INTEGER};
use writer::value::Value;

const NO_SCALARS: [Kind; 3] = [Kind::Instant, Kind::Array, Kind::Object];

fn record() -> Value {
    let list = vec![integer(1), string("1"), Value::Null, Value::Array(vec![]), Value::Boolean(true)];
    Value::Object(vec![
        member("n", Value::Null),
        member("o", Value::Object(vec![])),
        member("p", Value::Object(vec![member("a", integer(1))])),
        member("e", Value::Array(vec![])),
        member("l", Value::Array(list)),
        member("s", string("1")),
        member("d", string("2020-02-29")),
    ])
}

fn instant(random: &mut Random) -> Value {
    let text = string(random.pick(&["2020-02-29", "2020-03-01", "2020-02-29T00:00:00Z", "2020-02"]));
    if random.chance(30) {
        return operation("dccDateOfBirth", vec![text]);
    }
    let (amount, unit) = (random.pick(&[0, 0, 1, -1]), random.pick(&["day", "year"]));
    operation("plusTime", vec![text, integer(amount), string(unit)])
}

/// A rule of a kind, one of few.
fn few(random: &mut Random, kind: Kind) -> Value {
    match kind {
        Kind::Null => var(random.pick(&["n", "none"])),
        Kind::Boolean => Value::Boolean(random.chance(50)),
        Kind::Integer => integer(random.pick(&[-1, 0, 0, 1, 1, 2, MAX_INTEGER])),
        Kind::String if random.chance(30) => var(random.pick(&["s", "d"])),
        Kind::String => string(random.pick(&["", "0", "1", "1", "a"])),
        Kind::Date | Kind::Day => {
            string(random.pick(&["2020-02-29", "2020", "2020-02-29T12:00:00.5+01:00", "2020-02-30"]))
        }
        Kind::Uvci => string(random.pick(&["URN:UVCI:1:a", "1/a", "URN:UVCI", ""])),
        Kind::Instant => instant(random),
        Kind::Integers => Value::Array((0..random.below(4)).map(|_| few(random, Kind::Integer)).collect()),
        Kind::Strings => Value::Array((0..random.below(4)).map(|_| few(random, Kind::String)).collect()),
        Kind::Array => match random.below(4) {
            0 => var(random.pick(&["e", "l"])),
            1 => Value::Array(vec![]),
            _ => Value::Array((0..random.between(1, 3)).map(|_| any(random)).collect()),
        },
        Kind::Object => var(random.pick(&["o", "p", ""])),
    }
}

/// Of any kind, or one whose run is refused.
fn any(random: &mut Random) -> Value {
    match random.below(20) {
        0 => operation("+", vec![integer(MAX_INTEGER), integer(1)]),
        1 => operation("dccDateOfBirth", vec![string("x")]),
        2..=5 => instant(random),
        _ => {
            let kind = random.pick(&KINDS);
            few(random, kind)
        }
    }
}

/// The kinds that an operation is for.
fn wanted(random: &mut Random, name: &str) -> Vec<Kind> {
    let kind = random.pick(&KINDS);
    let number = random.pick(&[2, 3, 3]);
    match name {
        "if" => vec![kind; 3],
        "reduce" => vec![Kind::Array],
        "===" if random.chance(15) => vec![random.pick(&NO_SCALARS); 2],
        "===" if random.chance(40) => vec![random.pick(&SCALARS), random.pick(&SCALARS)],
        "===" => vec![random.pick(&SCALARS); 2],
        "in" if random.chance(15) => vec![random.pick(&NO_SCALARS), Kind::Array],
        "in" => vec![random.pick(&SCALARS), Kind::Array],
        "+" => vec![Kind::Integer; 2],
        "and" => (0..random.between(2, 4)).map(|_| random.pick(&KINDS)).collect(),
        "!" => vec![kind],
        "dccDateOfBirth" => vec![random.pick(&[Kind::Day, Kind::Day, Kind::Day, Kind::Date, Kind::Instant])],
        "plusTime" => vec![random.pick(&[Kind::Date, Kind::Date, Kind::Date, Kind::Instant, Kind::Null])],
        "extractFromUVCI" => vec![random.pick(&[Kind::Uvci, Kind::Uvci, Kind::Null])],
        name if SIGNS.contains(&name) => vec![Kind::Integer; number],
        _ => vec![Kind::Instant; number],
    }
}

/// A lambda, one of few.
fn lambda(random: &mut Random) -> Value {
    let (current, accumulator) = (var("current"), var("accumulator"));
    match random.below(6) {
        0 => operation("+", vec![current, accumulator]),
        1 => Value::Array(vec![accumulator, current]),
        2 => operation("and", vec![accumulator, current]),
        3 => var(random.pick(&["", "current", "accumulator", "n", "s", "accumulator.a", "current.0"])),
        4 => operation("===", vec![current, accumulator]),
        _ => any(random),
    }
}

/// The empty one stands for a date word.
#[rustfmt::skip]
const NAMES: [&str; 20] = [
    "if", "reduce", "===", "===", "in", "in", "+", "and", ">", "<", ">=", "<=", "!", "dccDateOfBirth", "plusTime",
    "extractFromUVCI", "", "", "", "",
];

pub fn one_operation(random: &mut Random) -> Pair {
    let name = match random.pick(&NAMES) {
        "" => random.pick(&DATE_WORDS),
        name => name,
    };
    let wrong = random.pick(&[0, 20, 40]);
    let mut operands = Vec::new();
    for kind in wanted(random, name) {
        operands.push(if random.chance(wrong) { any(random) } else { few(random, kind) });
    }
    let amount = random.pick(&[0, 1, -1, 2, 12, MAX_INTEGER]);
    match name {
        "reduce" => operands.extend([lambda(random), any(random)]),
        "plusTime" => operands.extend([integer(amount), string(random.pick(&["year", "month", "day", "hour"]))]),
        "extractFromUVCI" => operands.push(integer(amount)),
        _ => {}
    }
    if random.chance(12) {
        // Another number of operands.
        match random.below(3) {
            0 => drop(operands.pop()),
            1 => operands.push(any(random)),
            _ => operands.insert(0, any(random)),
        }
    }
    let rule = operation(name, operands);
    let rule = match random.below(8) {
        0 => Value::Array(vec![rule, any(random)]),
        1 => operation("!", vec![rule]),
        2 => operation("if", vec![any(random), rule, any(random)]),
        _ => rule,
    };
    (rule, record())
}
