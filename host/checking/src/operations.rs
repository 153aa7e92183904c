//! One operation on few operands, so that each word stands in each place, alone and beside others.

use crate::rules::{any_word, good_date, good_day, some_words};
use crate::sheets::{listed_word, near_word, of_word, sheet, Listed};
use evaluation::rules::{operation, var, DATE_WORDS, SIGNS};
use evaluation::values::{integer, member, string};
use evaluator::words::*;
use harness::random::Random;
use writer::value::Value;

/// A rule, a sheet and a record.
pub type Triple = [Value; 3];

/// What an operation is for, operand by operand.
fn wanted(random: &mut Random, name: &str) -> Vec<Word> {
    let number = random.pick(&[2, 3, 3]);
    let scalar = |random: &mut Random| random.pick(&[NULL, BOOLEAN, INTEGER, STRING, DATE, DAY]);
    let list = |random: &mut Random| random.pick(&[INTEGERS, STRINGS, ARRAY]);
    match name {
        "if" => (0..3).map(|_| any_word(random)).collect(),
        "and" => (0..random.between(2, 4)).map(|_| listed_word(random)).collect(),
        "!" if random.chance(15) => vec![INSTANT],
        "!" => vec![listed_word(random)],
        "===" => vec![scalar(random), scalar(random)],
        "in" => vec![scalar(random), list(random)],
        "+" => vec![INTEGER; 2],
        "plusTime" => vec![random.pick(&[DATE, DAY])],
        "dccDateOfBirth" => vec![DAY],
        "extractFromUVCI" => vec![random.pick(&[NULL, STRING, DATE, DAY])],
        "reduce" => vec![list(random), any_word(random)],
        name if SIGNS.contains(&name) => vec![INTEGER; number],
        _ => vec![INSTANT; number],
    }
}

/// The operand at a place: a `var` of its own, listed with a word or a few; an instant; a literal; or an odd `var`.
fn operand(random: &mut Random, word: Word, at: usize, listed: &mut Listed) -> Value {
    let path = ["a", "b", "c", "d"][at].to_string();
    if word == INSTANT {
        return match random.below(3) {
            0 => operation("dccDateOfBirth", vec![good_day(random)]),
            _ => operation("plusTime", vec![good_date(random), integer(random.below(3) as i64), string("day")]),
        };
    }
    match random.below(12) {
        0 => of_literal(random, word),
        1 => var(random.pick(&["", "none", "a.b", "b.0", "current", "accumulator"])),
        2 => Value::Array((0..random.below(3)).map(|_| of_literal(random, word)).collect()),
        3 => {
            let extra = Words(some_words(random).0 & !words([INSTANT]).0);
            listed.push((path.clone(), words([word]).and(extra)));
            var(&path)
        }
        _ => {
            listed.push((path.clone(), words([word])));
            var(&path)
        }
    }
}

fn of_literal(random: &mut Random, word: Word) -> Value {
    match word {
        BOOLEAN | INTEGER | STRING | DATE | DAY => of_word(random, word),
        INTEGERS => Value::Array(vec![integer(1), integer(2)]),
        STRINGS => Value::Array(vec![string("a"), string("2020")]),
        _ => Value::Array(vec![string("a"), integer(1)]),
    }
}

/// A lambda, one of few.
fn lambda(random: &mut Random) -> Value {
    let (current, accumulator) = (var("current"), var("accumulator"));
    match random.below(12) {
        0..=1 => operation("+", vec![current, accumulator]),
        2 => Value::Array(vec![accumulator, current]),
        3 => operation("if", vec![current, accumulator.clone(), accumulator]),
        4 => operation("===", vec![current, accumulator]),
        5 => operation("!", vec![current]),
        6 => operation("and", vec![accumulator, current]),
        7 => operation("plusTime", vec![current, integer(1), string("day")]),
        8 => operation("extractFromUVCI", vec![current, integer(0)]),
        9 => of_word(random, INTEGER),
        _ => var(random.pick(&[
            "",
            "current",
            "current",
            "accumulator",
            "a",
            "none",
            "accumulator.a",
            "current.0",
            "currents",
            "current2.a",
            "accumulator.current",
        ])),
    }
}

/// The empty one stands for a date word.
#[rustfmt::skip]
const NAMES: [&str; 22] = [
    "if", "reduce", "reduce", "reduce", "===", "===", "in", "in", "+", "and", "and", ">", "<", ">=", "<=", "!", "!",
    "dccDateOfBirth", "plusTime", "extractFromUVCI", "", "",
];

pub fn one_operation(random: &mut Random) -> Triple {
    let name = match random.pick(&NAMES) {
        "" => random.pick(&DATE_WORDS),
        name => name,
    };
    let mut listed = Vec::new();
    let wrong = random.pick(&[0, 0, 15, 40]);
    let mut operands = Vec::new();
    for (at, word) in wanted(random, name).into_iter().enumerate() {
        if (name, at) == ("reduce", 0) && random.chance(25) {
            let lists = random.pick(&[[INTEGERS, STRINGS], [INTEGERS, ARRAY], [STRINGS, ARRAY]]);
            listed.push(("a".to_string(), words(lists)));
            operands.push(var("a"));
            continue;
        }
        let word = if random.chance(wrong) { any_word(random) } else { word };
        operands.push(operand(random, word, at, &mut listed));
    }
    match name {
        "reduce" => operands.insert(1, lambda(random)),
        "plusTime" => operands.extend([integer(random.pick(&[0, 1, -1])), string(random.pick(&["year", "day"]))]),
        "extractFromUVCI" => operands.push(integer(random.below(3) as i64)),
        _ => {}
    }
    let rule = operation(name, operands);
    let rule = match random.below(8) {
        0 => Value::Array(vec![rule]),
        1 => operation("if", vec![rule, Value::Boolean(true), integer(0)]),
        2 => operation("if", vec![Value::Boolean(false), rule, integer(0)]),
        3 => operation("and", vec![Value::Boolean(false), rule]),
        _ => rule,
    };
    let record = record(random, &listed);
    [rule, sheet(random, &listed), record]
}

/// A record with something at each listed path: most often what belongs to a word of it.
fn record(random: &mut Random, listed: &Listed) -> Value {
    let mut members = Vec::new();
    for (path, words) in listed {
        let word = random.pick(&words.iter().collect::<Vec<_>>());
        let any = listed_word(random);
        match random.below(12) {
            0 => {}
            1 => members.push(member(path, near_word(random, word))),
            2 => members.push(member(path, of_word(random, any))),
            _ => members.push(member(path, of_word(random, word))),
        }
    }
    Value::Object(members)
}

/// Values near words: one to three listed paths, and rules that ask for what they lead to.
pub fn near_words(random: &mut Random) -> Triple {
    let count = random.pick(&[1, 1, 2, 3]);
    let paths = random.pick(&[["a", "b", "c"], ["a.b", "a.c", "d.0"], ["0", "1", "2"], ["a.0", "a.1", "a.2"]]);
    let (mut listed, mut values): (Listed, Vec<Value>) = (Vec::new(), Vec::new());
    for path in &paths[..count] {
        let word = listed_word(random);
        let extra = if random.chance(25) { listed_word(random) } else { word };
        let other = listed_word(random);
        listed.push((path.to_string(), words([word, extra])));
        values.push(match random.below(6) {
            0..=2 => of_word(random, word),
            3..=4 => near_word(random, word),
            _ => of_word(random, other),
        });
    }
    if random.chance(10) {
        values.pop();
    }
    let record = match paths[0] {
        "a" => Value::Object(values.into_iter().zip(paths).map(|(value, path)| member(path, value)).collect()),
        "0" => Value::Array(values),
        "a.0" => Value::Object(vec![member("a", Value::Array(values))]),
        _ => {
            let mut values = values.into_iter();
            let inner = ["b", "c"].into_iter().zip(&mut values).map(|(name, value)| member(name, value)).collect();
            Value::Object(vec![member("a", Value::Object(inner)), member("d", Value::Array(values.collect()))])
        }
    };
    let asked = var(paths[random.below(count)]);
    let rule = match random.below(8) {
        0 => operation("plusTime", vec![asked, integer(0), string("day")]),
        1 => operation("dccDateOfBirth", vec![asked]),
        2 => operation("extractFromUVCI", vec![asked, integer(0)]),
        3 => operation("+", vec![asked, integer(1)]),
        4 => operation("reduce", vec![asked, var("current"), integer(0)]),
        5 => operation("in", vec![integer(1), asked]),
        _ => asked,
    };
    [rule, sheet(random, &listed), record]
}
