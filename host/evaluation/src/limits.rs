//! Rules and records whose texts, runs or answers come near a limit.

use crate::random::Random;
use crate::rules::{operation, var, Maker, SIGNS};
use crate::values::{self, any_integer, integer, member, string, Kind, MAX_INTEGER};
use evaluator::entry::{Evaluation, EVALUATE};
use evaluator::run::End;
use writer::value::Value;

/// A rule and a record.
pub type Pair = (Value, Value);

/// The answer, unless it is far too large or there is none.
fn answer(rule: &Value, record: &Value) -> Option<Value> {
    match Evaluation::of(&EVALUATE, &[&rule.text(), &record.text()]).run()?.end {
        End::Value(ref value) => value.unshared(),
        _ => None,
    }
}

fn zeros(count: usize) -> Value {
    Value::Array(vec![integer(0); count])
}

/// A value in so many arrays.
fn nested(value: Value, depth: usize) -> Value {
    (0..depth).fold(value, |inner, _| Value::Array(vec![inner]))
}

fn sum(one: Value, other: Value) -> Value {
    operation("+", vec![one, other])
}

// ---- integers

/// Sums about 9007199254740991 either way, and comparisons of what is there.
pub fn sums(random: &mut Random) -> Pair {
    let sign = random.pick(&[-1, 1]);
    let near = |random: &mut Random| match random.below(4) {
        0 => integer(sign * (MAX_INTEGER - random.below(3) as i64)),
        1 => integer(sign * (MAX_INTEGER / 2 + random.below(3) as i64)),
        2 => integer(any_integer(random)),
        _ => integer(random.below(5) as i64 - 2),
    };
    let record = Value::Object(vec![
        member("a", near(random)),
        member("l", Value::Array((0..4).map(|_| near(random)).collect())),
    ]);
    let operand = |random: &mut Random| match random.below(4) {
        0 => var(random.pick(&["a", "l.0", "l.1", "l.3"])),
        1 => sum(near(random), near(random)),
        _ => near(random),
    };
    let rule = match random.below(4) {
        0 => operation("reduce", vec![var("l"), sum(var("current"), var("accumulator")), operand(random)]),
        1 => {
            let name = random.pick(&SIGNS);
            operation(name, (0..random.between(2, 3)).map(|_| operand(random)).collect())
        }
        2 => sum(sum(operand(random), operand(random)), operand(random)),
        _ => sum(operand(random), operand(random)),
    };
    (rule, record)
}

// ---- nesting and length of rules

/// A rule that nests 30 to 33 deep.
pub fn deep(random: &mut Random) -> Pair {
    let record = values::record(random);
    let scope = values::paths(&record);
    let depth = random.pick(&[30, 31, 32, 32, 32, 32, 33]);
    let kind = random.pick(&values::KINDS);
    let chain = random.chance(30);
    let mut maker = Maker::new(random);
    if !chain {
        maker.narrow = true;
        maker.left = 150;
        maker.reducing = maker.random.pick(&[0, 10, 60]);
        return (maker.rule(kind, depth, &scope), record);
    }
    // One operation within the other.
    let mut rule = maker.rule(kind, 2, &scope);
    while rule.nesting() + 2 <= depth {
        let filler = integer(any_integer(random));
        rule = match random.below(6) {
            0 => operation("!", vec![rule]),
            1 => operation("and", vec![filler, rule]),
            2 => operation("if", vec![rule, integer(1), integer(0)]),
            3 => operation("if", vec![filler, rule, integer(2)]),
            4 => operation("reduce", vec![zeros(1), rule, integer(3)]),
            _ => nested(rule, 2),
        };
    }
    (rule, record)
}

/// A rule of about 1,024 values or 1,000 steps, or about 16,384 bytes long.
pub fn long(random: &mut Random) -> Pair {
    let one_step = random.chance(15);
    let items = if one_step { random.pick(&[900, 996, 997, 998]) } else { random.between(150, 260) };
    let record = Value::Object(vec![member("a", integer(1)), member("l", zeros(items))]);
    if one_step {
        let lambda = var(random.pick(&["", "current", "accumulator", "accumulator.accumulator"]));
        return (operation("reduce", vec![var("l"), lambda, integer(0)]), record);
    }
    let rule = match random.below(7) {
        0..=1 => zeros(random.pick(&[900, 998, 999, 999, 999, 1_000, 1_023, 1_024])),
        2 => {
            let operands = random.pick(&[900, 998, 999, 999, 1_000, 1_022, 1_023]);
            let falsy = if random.chance(50) { random.below(operands) } else { operands };
            operation("and", (0..operands).map(|at| integer(i64::from(at != falsy))).collect())
        }
        3 => {
            // Operations until the text has enough values.
            let total = random.pick(&[900, 1_000, 1_020, 1_024, 1_024, 1_025]);
            let (mut items, mut values) = (Vec::new(), 1);
            while values < total {
                let item = match (total - values, random.below(4)) {
                    (4.., 0) => sum(integer(1), integer(2)),
                    (3.., 1) => operation("!", vec![integer(0)]),
                    (2.., 2) => var("a"),
                    _ => integer(7),
                };
                values += item.count();
                items.push(item);
            }
            Value::Array(items)
        }
        4 => {
            // About 1,000 steps of a lambda.
            let lambda = match random.below(2) {
                0 => sum(var("current"), var("accumulator")),
                _ => Value::Array(vec![integer(1), integer(2), integer(3)]),
            };
            operation("reduce", vec![var("l"), lambda, integer(0)])
        }
        5 => {
            let count = random.pick(&[8_000, 16_000, 16_381, 16_382, 16_383]);
            string(&"x".repeat(count))
        }
        _ => {
            let piece = random.pick(&["é", "\n", "\u{1}", "😀"]);
            let length = Value::String(piece.as_bytes().to_vec()).text().len() - 2;
            let filler = random.below(length + 1);
            string(&(piece.repeat((16_382 - filler) / length) + &"x".repeat(filler)))
        }
    };
    (rule, record)
}

/// A value, or an array or object that holds it.
fn some_parts(random: &mut Random, value: Value) -> Value {
    match random.below(4) {
        0 => nested(value, 1),
        1 => Value::Object(vec![member("a", value), member("b", integer(0))]),
        _ => value,
    }
}

/// Operations on long strings, paths and lists, and on objects of many members.
pub fn long_operands(random: &mut Random) -> Pair {
    let length = random.pick(&[100, 255, 256, 1_000, 6_000]);
    match random.below(6) {
        0 => {
            // Strings that differ in one byte, if at all.
            let text = "abcdefgh".repeat(length / 8);
            let mut other = text.clone();
            match random.below(3) {
                0 => {
                    let at = random.pick(&[0, text.len() / 2, text.len() - 1]);
                    other.replace_range(at..=at, "X");
                }
                1 => drop(other.pop()),
                _ => {}
            }
            let rule = match random.below(2) {
                0 => operation("===", vec![string(&other), var("s")]),
                _ => operation("in", vec![var("s"), Value::Array(vec![integer(1), string(&other), var("")])]),
            };
            (rule, Value::Object(vec![member("s", string(&text))]))
        }
        1 => {
            // Many fragments of a UVCI.
            let text = random.pick(&["", "URN:UVCI:"]).to_string() + &random.pick(&["a:", "/", "#b"]).repeat(length);
            let index = length as i64 + random.below(5) as i64 - 3;
            (operation("extractFromUVCI", vec![var(""), integer(index)]), string(&text))
        }
        2 => {
            // Many fragments of a path, on what nests deep.
            let depth = random.between(1, 31);
            let fragments = random.pick(&[depth - 1, depth, depth, depth + 1, length]).max(1);
            let (name, record) = match random.below(2) {
                0 => ("0", nested(integer(5), depth)),
                _ => ("a", (0..depth).fold(integer(5), |inner, _| Value::Object(vec![member("a", inner)]))),
            };
            (var(&vec![name; fragments].join(".")), record)
        }
        3 => {
            let items = random.between(1, 900);
            let wanted = random.pick(&[0, items - 1, items, items / 2]);
            let list = Value::Array((0..items).map(|at| integer(at as i64)).collect());
            let rule = match random.below(2) {
                0 => operation("in", vec![integer(wanted as i64), var("")]),
                _ => var(&wanted.to_string()),
            };
            (rule, list)
        }
        4 => {
            // Many items, of which some have parts: one of them, or what is in it.
            let items = random.between(1, 300);
            let wanted = random.below(items + 1);
            let list = (0..items).map(|at| some_parts(random, integer(at as i64))).collect();
            let below = random.pick(&["", "", ".0", ".a"]);
            (var(&format!("{}{}", wanted, below)), Value::Array(list))
        }
        _ => {
            // Many members, with names that are alike.
            let members = random.between(1, 300);
            let before = random.pick(&["", "n", "a long beginning that all names have in common "]);
            let record = (0..members).map(|at| member(&format!("{}{}", before, at), integer(at as i64))).collect();
            let wanted = random.pick(&[0, members - 1, members, members / 2, members * 10]);
            (var(&format!("{}{}", before, wanted)), Value::Object(record))
        }
    }
}

// ---- answers

/// Lists that hold the accumulator twice: their size doubles with each item.
pub fn tower(random: &mut Random) -> Pair {
    let accumulator = || var("accumulator");
    let lambda = match random.below(8) {
        0..=2 => Value::Array(vec![accumulator(), accumulator()]),
        3 => Value::Array(vec![accumulator(), var("current"), accumulator()]),
        4 => Value::Array(vec![var(""), var("")]),
        5 => Value::Array(vec![accumulator(), nested(accumulator(), 1)]),
        6 => operation("if", vec![var("current"), accumulator(), Value::Array(vec![accumulator(), accumulator()])]),
        _ => var(""),
    };
    let count = match random.below(6) {
        0..=2 => random.between(5, 12),
        3 => random.between(28, 34),
        _ => random.between(1, 260),
    };
    let initial = match random.below(4) {
        0 => zeros(random.below(4)),
        1 => string("x"),
        2 => integer(1),
        _ => var("s"),
    };
    let record = Value::Object(vec![member("l", zeros(count)), member("s", string(&"y".repeat(random.below(60))))]);
    let operand = if random.chance(50) { var("l") } else { zeros(count) };
    let tower = operation("reduce", vec![operand, lambda, initial]);
    let rule = match random.below(12) {
        0 => nested(tower, 1),
        1 => Value::Array(vec![integer(1), tower]),
        2 => operation("if", vec![tower, integer(1), integer(2)]),
        3 => operation("!", vec![tower]),
        4 => operation("and", vec![tower, string("z")]),
        5 => operation("in", vec![integer(0), tower]),
        6 => operation("===", vec![tower, integer(0)]),
        7 => operation("reduce", vec![tower, var("current"), integer(0)]),
        8 => operation("reduce", vec![zeros(1), var("accumulator.0.1.0.0"), tower]),
        _ => tower,
    };
    (rule, record)
}

/// An answer that nests about 32 deep: by the rule, by the record, and by what a lambda makes.
pub fn answer_nesting(random: &mut Random) -> Pair {
    let inner = match random.below(3) {
        0 => Value::Array(vec![]),
        1 => Value::Object(vec![]),
        _ => integer(1),
    };
    let of_record = nested(inner, random.below(30));
    let record = Value::Object(vec![member("n", of_record), member("l", zeros(random.below(30)))]);
    let rule = match random.below(4) {
        0 => var("n"),
        1 => operation("reduce", vec![var("l"), nested(var("accumulator"), 1), var("n")]),
        2 => operation("reduce", vec![var("l"), var(""), var("n")]),
        _ => operation("reduce", vec![var("l"), Value::Array(vec![var("current"), var("accumulator")]), var("n")]),
    };
    let target: usize = random.pick(&[31, 32, 32, 32, 33, 33]);
    let missing = answer(&rule, &record).map_or(0, |answer| target.saturating_sub(answer.nesting()));
    let outside = missing.min(32 - rule.nesting());
    (nested(rule, outside), record)
}

/// An answer of about 1,024 values.
pub fn answer_values(random: &mut Random) -> Pair {
    let target: usize = random.pick(&[1_000, 1_023, 1_024, 1_024, 1_024, 1_025, 1_025, 1_026]);
    let again = random.between(1, 3);
    let part = match random.below(3) {
        0 => zeros(random.below(200)),
        1 => values::of_kind(random, Kind::Array, 3),
        _ => Value::Object((0..random.below(150)).map(|at| member(&at.to_string(), integer(0))).collect()),
    };
    let made = |filler: usize| {
        let items = std::iter::repeat(var("p")).take(again).chain([var("f")]).collect();
        (Value::Array(items), Value::Object(vec![member("p", part.clone()), member("f", zeros(filler))]))
    };
    let (rule, record) = made(0);
    let filler = answer(&rule, &record).map_or(0, |answer| target.saturating_sub(answer.count()));
    made(filler)
}

/// An answer of about 16,384 bytes.
pub fn answer_bytes(random: &mut Random) -> Pair {
    let target: usize = random.pick(&[16_000, 16_383, 16_384, 16_384, 16_384, 16_385, 16_385, 16_386]);
    let again = random.between(1, 4);
    let piece = random.pick(&["x", "é", "€", "\n", "\u{1}", "\"", "😀", "\\"]);
    let spelled = Value::String(piece.as_bytes().to_vec()).text().len() - 2;
    let part = string(&piece.repeat(random.below(12_000 / again / spelled)));
    let named = random.chance(40); // the filler is a name
    let made = |filler: usize| {
        let filler = "f".repeat(filler);
        let last = if named { Value::Object(vec![member(&filler, integer(0))]) } else { string(&filler) };
        let items = std::iter::repeat(var("p")).take(again).chain([var("f")]).collect();
        (Value::Array(items), Value::Object(vec![member("p", part.clone()), member("f", last)]))
    };
    let (rule, record) = made(0);
    let filler = answer(&rule, &record).map_or(0, |answer| target.saturating_sub(answer.text().len()));
    made(filler)
}
