//! Random cases, in classes: two texts, a limit, lent areas, and what is to come of them.

use crate::compare::Call;
use crate::damage::damage;
use crate::generate;
use crate::limits::{self, Pair};
use crate::misshape::misshape;
use crate::operations::one_operation;
use crate::random::Random;
use crate::rules::{lambda_scope, operation, var, Maker, DATE_WORDS};
use crate::spell::spell;
use crate::values::{self, integer, member, string, Kind, KINDS};
use evaluator::cases;
use evaluator::entry::{Evaluation, EVALUATE};
use harness::classes;
use harness::classes::class_at;
use writer::value::{Value, MAX_TEXT_BYTES};

/// Of a rule and a record.
pub type Texts = (Vec<u8>, Vec<u8>);

classes! {
    Texts;
    "ordinary rules", 18, |random| spelled(random, ordinary);
    "one operation on few values", 12, |random| spelled(random, one_operation);
    "dates", 10, |random| spelled(random, dates);
    "UVCIs", 4, |random| spelled(random, uvcis);
    "paths", 8, |random| spelled(random, paths);
    "paths of lambdas", 4, |random| spelled(random, lambda_paths);
    "sums near the limits", 4, |random| spelled(random, limits::sums);
    "reduce within reduce", 8, |random| spelled(random, reduces);
    "deep rules", 5, |random| spelled(random, limits::deep);
    "long rules", 3, |random| spelled(random, limits::long);
    "long operands", 2, |random| spelled(random, limits::long_operands);
    "lists that double", 3, |random| spelled(random, limits::tower);
    "answers nested about 32 deep", 2, |random| spelled(random, limits::answer_nesting);
    "answers of about 1,024 values", 1, |random| spelled(random, limits::answer_values);
    "answers of about 16,384 bytes", 2, |random| spelled(random, limits::answer_bytes);
    "nearly rules", 7, nearly_rules;
    "damaged texts", 5, damaged;
    "any texts", 1, any_texts;
    "a rule and a record of vectors/", 1, crossed;
}

pub struct Case {
    /// Its number among `CLASSES`; that number is past the last for a case of `vectors/`.
    pub class: usize,
    pub call: Call,
}

/// The case of a number.
pub fn case(number: u64) -> Case {
    let mut random = Random::new(number);
    let class = class_at(CLASSES, random.below(100));
    let (rule, record) = (CLASSES[class].make)(&mut random);
    let evaluation = Evaluation::of(&EVALUATE, &[&rule, &record]);
    Case { class, call: Call::random(&mut random, &EVALUATE, vec![rule, record], evaluation) }
}

/// The texts of a rule and a record; rarely one is filled up with white space, to about the largest length.
pub fn spelled(random: &mut Random, make: fn(&mut Random) -> Pair) -> Texts {
    let (rule, record) = make(random);
    let (mut rule, mut record) = (spell(random, &rule), spell(random, &record));
    if random.chance(1) {
        let chosen = random.pick(&[true, false]);
        let text = if chosen { &mut rule } else { &mut record };
        let length = random.pick(&[MAX_TEXT_BYTES, MAX_TEXT_BYTES, MAX_TEXT_BYTES + 1, MAX_TEXT_BYTES + 700]);
        text.resize(length.max(text.len()), b' ');
    }
    (rule, record)
}

// ---- rules and records

fn ordinary(random: &mut Random) -> Pair {
    let record = values::record(random);
    let scope = values::paths(&record);
    let kind = if random.chance(35) { Kind::Boolean } else { random.pick(&KINDS) };
    let depth = random.pick(&[3, 5, 8, 12, 20]);
    (Maker::new(random).rule(kind, depth, &scope), record)
}

fn dates(random: &mut Random) -> Pair {
    let texts = (0..6).map(|_| Value::String(values::date_text(random))).collect();
    let record = Value::Object(vec![member("d", Value::Array(texts))]);
    let instant = |random: &mut Random| {
        let text = match random.below(3) {
            0 => var(random.pick(&["d.0", "d.1", "d.2", "d.3", "d.4", "d.5"])),
            _ => Value::String(values::date_text(random)),
        };
        match random.below(4) {
            0 => operation("dccDateOfBirth", vec![text]),
            _ => Maker::new(random).plus_time(text),
        }
    };
    let rule = match random.below(3) {
        0 => operation(random.pick(&DATE_WORDS), (0..random.between(2, 3)).map(|_| instant(random)).collect()),
        1 => Value::Array((0..random.between(1, 3)).map(|_| instant(random)).collect()),
        _ => instant(random),
    };
    (rule, record)
}

fn uvcis(random: &mut Random) -> Pair {
    let text = string(&values::uvci_text(random));
    let index = match random.below(8) {
        0 => values::any_integer(random),
        _ => random.below(8) as i64 - 1,
    };
    match random.below(3) {
        0 => (operation("extractFromUVCI", vec![text, integer(index)]), Value::Null),
        1 => (operation("extractFromUVCI", vec![var("u"), integer(index)]), Value::Object(vec![member("u", text)])),
        _ => {
            let all = (-1..5).map(|index| operation("extractFromUVCI", vec![var(""), integer(index)])).collect();
            (Value::Array(all), text)
        }
    }
}

fn paths(random: &mut Random) -> Pair {
    let record = if random.chance(70) { values::record(random) } else { values::of_kind(random, Kind::Array, 3) };
    let scope = values::paths(&record);
    let mut maker = Maker::new(random);
    let rules = (0..maker.random.between(1, 6)).map(|_| match maker.random.below(3) {
        0 => {
            let at = maker.random.below(scope.len());
            var(&scope[at].0)
        }
        _ => var(&maker.odd_path(&scope)),
    });
    let rules: Vec<Value> = rules.collect();
    (if rules.len() == 1 { rules[0].clone() } else { Value::Array(rules) }, record)
}

/// Paths on the context of a lambda, and of a lambda within it.
fn lambda_paths(random: &mut Random) -> Pair {
    let record = values::record(random);
    let (current, accumulator) = (random.pick(&[Kind::Array, Kind::Object]), random.pick(&[Kind::Array, Kind::Object]));
    let mut scope = lambda_scope(current, accumulator);
    let of_record = values::paths(&record).into_iter().skip(1).take(6);
    scope.extend(of_record.map(|(path, kind)| (format!("accumulator.{}", path), kind)));
    let mut maker = Maker::new(random);
    let mut list = |count: usize| {
        let path = |maker: &mut Maker| match maker.random.below(2) {
            0 => {
                let at = maker.random.below(scope.len());
                scope[at].0.clone()
            }
            _ => maker.odd_path(&scope),
        };
        Value::Array((0..count).map(|_| var(&path(&mut maker))).collect())
    };
    let (first, second) = (list(3), list(2));
    let items = Value::Array(vec![var(""), Value::Array(vec![integer(1), var("")]), integer(2)]);
    let lambda = match random.below(3) {
        0 => operation("reduce", vec![Value::Array(vec![var("current"), var("")]), first, second]),
        _ => first,
    };
    (operation("reduce", vec![items, lambda, var("")]), record)
}

fn reduces(random: &mut Random) -> Pair {
    let record = values::record(random);
    let scope = values::paths(&record);
    let kind = random.pick(&[Kind::Integer, Kind::Array, Kind::Boolean, Kind::Instant, Kind::String, Kind::Object]);
    let depth = random.pick(&[6, 10, 16]);
    let mut maker = Maker::new(random);
    maker.reducing = 35;
    maker.left = maker.left.max(20);
    (maker.reduce(kind, depth, &scope), record)
}

// ---- texts that are refused

fn nearly_rules(random: &mut Random) -> Texts {
    let make = random.pick(&[ordinary, one_operation, dates, uvcis, limits::deep] as &[fn(&mut Random) -> Pair]);
    let (mut rule, record) = make(random);
    for _ in 0..random.pick(&[1, 1, 1, 2]) {
        misshape(random, &mut rule);
    }
    let (rule, mut record) = (spell(random, &rule), spell(random, &record));
    if random.chance(15) {
        damage(random, &mut record);
    }
    (rule, record)
}

fn damaged(random: &mut Random) -> Texts {
    let make = random.pick(&[ordinary, ordinary, paths, limits::deep, limits::long] as &[fn(&mut Random) -> Pair]);
    let (mut rule, mut record) = spelled(random, make);
    let harm = if random.chance(40) { put_fault } else { damage };
    let which = random.below(8);
    if which >= 4 {
        harm(random, &mut rule);
    }
    if which <= 4 {
        harm(random, &mut record);
    }
    (rule, record)
}

/// Puts a fault of 3 or 4 where it is likely one.
pub fn put_fault(random: &mut Random, text: &mut Vec<u8>) {
    let (before, fault): (&[u8], &[u8]) = random.pick(&[
        (b"\"", b"\\ud800"),
        (b"\"", b"\\udc00x"),
        (b"0123456789", b".5"),
        (b"0123456789", b"e3"),
        (b"0123456789", b"0000000000000000"),
        (b"{", b"\"a\":0,\"\\u0061\":1,"),
        (b"{", b"\"x\":0,\"x\":1,"),
    ]);
    let places: Vec<usize> = (0..text.len()).filter(|&at| before.contains(&text[at])).collect();
    if !places.is_empty() {
        let after = random.pick(&places) + 1;
        drop(text.splice(after..after, fault.iter().copied()));
    }
}

/// Texts that know nothing of rules.
fn any_texts(random: &mut Random) -> Texts {
    let rules = [var(""), Value::Array(vec![var(""), var("")]), var("0"), var("a")];
    let rule = match random.below(4) {
        0 => generate::text(random),
        at => rules[at - 1].text(),
    };
    (rule, generate::text(random))
}

/// A rule of one case of `vectors/`, and the record of another.
fn crossed(random: &mut Random) -> Texts {
    thread_local! {
        static ALL: Vec<cases::Case> = cases::of_entry(&EVALUATE);
    }
    ALL.with(|all| {
        let (one, other) = (random.below(all.len()), random.below(all.len()));
        (all[one].texts[0].clone(), all[other].texts[1].clone())
    })
}
