//! Random cases, in classes: a rule, a sheet and a record, given to all three entries.

use crate::operations::{near_words, one_operation, Triple};
use crate::rules::{every_word, some_words, Maker, Scope};
use crate::sheets::{self, change, listing, sheet, Listed};
use evaluation::cases::put_fault;
use evaluation::compare::Call;
use evaluation::damage::damage;
use evaluation::limits::{self, Pair};
use evaluation::misshape::misshape;
use evaluation::rules::{operation, var};
use evaluation::spell::spell;
use evaluation::values::{self, integer, member, string};
use evaluator::cases;
use evaluator::entry::{Entry, Evaluation, Read, Text, CHECK, EVALUATE_CHECKED, FITS};
use evaluator::words::*;
use harness::classes;
use harness::classes::class_at;
use harness::random::Random;
use writer::value::{Value, MAX_TEXT_BYTES};

/// Of a rule, a sheet and a record.
pub type Texts = [Vec<u8>; 3];

classes! {
    Texts;
    "ordinary rules", 24, |random| spelled(random, ordinary);
    "one operation on few operands", 18, |random| spelled(random, one_operation);
    "values near words", 12, |random| spelled(random, near_words);
    "reduce within reduce", 9, |random| spelled(random, reduces);
    "arrays and literals", 5, |random| spelled(random, literals);
    "paths", 6, |random| spelled(random, paths);
    "nearly sheets", 8, nearly_sheets;
    "sheets of about 256 members", 1, |random| spelled(random, long_sheets);
    "rules and answers near a limit", 4, |random| spelled(random, near_limits);
    "nearly rules", 3, nearly_rules;
    "damaged texts", 6, damaged;
    "texts of vectors/", 4, crossed;
}

/// The entries that are called, in this order.
pub const ENTRIES: [&Entry; 3] = [&CHECK, &FITS, &EVALUATE_CHECKED];

pub struct Case {
    /// Its number among `CLASSES`; that number is past the last for a case of `vectors/`.
    pub class: usize,
    pub texts: Texts,
    /// What the reader says of them.
    pub read: [Read; 3],
    /// One for each entry, or for that of a case of `vectors/` alone.
    pub calls: Vec<Call>,
}

impl Case {
    /// Of calls that are made of what an entry takes of the texts, and of what comes of that.
    pub fn new(class: usize, texts: Texts, mut calls: impl FnMut(Given) -> Vec<Call>) -> Case {
        let read = [0, 1, 2].map(|at| reader::judge(&texts[at]));
        let calls = calls(Given { texts: &texts, read: &read });
        Case { class, texts, read, calls }
    }

    pub fn call(&self, entry: &Entry) -> Option<&Call> {
        self.calls.iter().find(|call| call.entry == entry)
    }
}

/// Three texts, and what the reader says of them.
#[derive(Clone, Copy)]
pub struct Given<'a> {
    texts: &'a Texts,
    read: &'a [Read; 3],
}

impl Given<'_> {
    /// Those of the texts that an entry takes.
    pub fn taken(&self, entry: &Entry) -> Vec<Vec<u8>> {
        entry.texts.iter().map(|text| self.texts[*text as usize - 1].clone()).collect()
    }

    /// What comes of them.
    pub fn evaluation(&self, entry: &Entry) -> Evaluation {
        let read: Vec<&Read> = entry.texts.iter().map(|text| &self.read[*text as usize - 1]).collect();
        Evaluation::of_read(entry, &read)
    }
}

/// The case of a number.
pub fn case(number: u64) -> Case {
    let mut random = Random::new(number);
    let class = class_at(CLASSES, random.below(100));
    let texts = (CLASSES[class].make)(&mut random);
    let mut call = |entry, given: Given| Call::random(&mut random, entry, given.taken(entry), given.evaluation(entry));
    Case::new(class, texts, |given| ENTRIES.iter().map(|entry| call(entry, given)).collect())
}

/// The texts of a rule, a sheet and a record; rarely one is filled up with white space, to about the largest length.
fn spelled(random: &mut Random, make: fn(&mut Random) -> Triple) -> Texts {
    let mut texts = make(random).map(|value| spell(random, &value));
    if random.chance(1) {
        let text = &mut texts[random.below(3)];
        let length = random.pick(&[MAX_TEXT_BYTES, MAX_TEXT_BYTES, MAX_TEXT_BYTES + 1, MAX_TEXT_BYTES + 700]);
        text.resize(length.max(text.len()), b' ');
    }
    texts
}

// ---- rules that mostly pass, with records that mostly fit

/// What a rule outside lambdas can reach: what is listed, and a few paths that are not.
fn scope(listed: &Listed, record: &Value) -> Scope {
    let mut paths = listed.clone();
    let unlisted = |path: &String| listed.iter().all(|(other, _)| other != path);
    let others = values::paths(record).into_iter().map(|(path, _)| path).filter(unlisted).take(3);
    paths.extend(others.map(|path| (path, any_of_record())));
    Scope { paths, in_lambda: false }
}

/// A sheet and a record, which most often fits, with what a rule can reach.
fn subject(random: &mut Random) -> (Listed, Value, Scope) {
    let (listed, mut record) = sheets::subject(random);
    let scope = scope(&listed, &record);
    for _ in 0..random.pick(&[0, 0, 0, 0, 1, 1, 2]) {
        change(random, &listed, &mut record);
    }
    (listed, record, scope)
}

/// Words that a whole rule may have.
fn wanted(random: &mut Random) -> Words {
    match random.below(10) {
        0..=3 => words([BOOLEAN]),
        4..=8 => some_words(random),
        _ => every_word(),
    }
}

fn ordinary(random: &mut Random) -> Triple {
    let (listed, record, scope) = subject(random);
    let wanted = wanted(random);
    let depth = random.pick(&[3, 5, 8, 12, 20]);
    let rule = Maker::new(random).rule(wanted, depth, &scope).rule;
    [rule, sheet(random, &listed), record]
}

fn reduces(random: &mut Random) -> Triple {
    let (listed, record, scope) = subject(random);
    let wanted = wanted(random);
    let depth = random.pick(&[6, 10, 16]);
    let mut maker = Maker::new(random);
    maker.reducing = 35;
    maker.left = maker.left.max(15);
    let rule = maker.reduce(wanted, depth, &scope).rule;
    [rule, sheet(random, &listed), record]
}

/// Arrays of literals and of paths with few words, where one item decides.
fn literals(random: &mut Random) -> Triple {
    let listed: Listed = [
        ("i", words([INTEGER])),
        ("s", words([STRING])),
        ("t", words([DATE])),
        ("d", words([DAY])),
        ("td", words([DATE, DAY])),
        ("ni", words([NULL, INTEGER])),
        ("is", words([INTEGERS])),
    ]
    .map(|(path, words)| (path.to_string(), words))
    .into();
    let kind = random.below(3);
    let item = |random: &mut Random| match (kind, random.below(12)) {
        (_, 0) => var(random.pick(&["none", "ni", "is", "td", ""])),
        (_, 1) => Value::Array(vec![]),
        (0, 2..=4) => var("i"),
        (0, _) => integer(values::any_integer(random)),
        (1, 2..=4) => var(random.pick(&["s", "t", "d", "td"])),
        (1, 5..=7) => sheets::near_word(random, DATE),
        (1, _) => sheets::of_word(random, STRING),
        _ => {
            let word = sheets::listed_word(random);
            match word {
                BOOLEAN | INTEGER | STRING | DATE | DAY => sheets::of_word(random, word),
                _ => operation("dccDateOfBirth", vec![string("2020")]),
            }
        }
    };
    let array = Value::Array((0..random.pick(&[0, 1, 1, 2, 3, 4])).map(|_| item(random)).collect());
    let one = item(random);
    let rule = match random.below(9) {
        0..=1 => one,
        2 => operation("plusTime", vec![one, integer(0), string("day")]),
        8 => operation("dccDateOfBirth", vec![one]),
        3 => operation("reduce", vec![array, operation("+", vec![var("current"), integer(1)]), integer(0)]),
        4 => operation("reduce", vec![array, var("current"), string("a")]),
        5 => operation("reduce", vec![array, operation("!", vec![var("current")]), Value::Boolean(true)]),
        6 => operation("in", vec![one, array]),
        _ => array,
    };
    let record = listed.iter().map(|(path, words)| {
        let word = random.pick(&words.iter().collect::<Vec<_>>());
        member(path, sheets::of_word(random, word))
    });
    let record = Value::Object(record.collect());
    [rule, sheet(random, &listed), record]
}

/// Paths that are listed, that begin or go on as a listed one, and others.
fn paths(random: &mut Random) -> Triple {
    let (mut listed, record) = sheets::subject(random);
    let nested = listed.iter().filter(|(path, _)| path.contains('.')).count();
    if nested == 0 {
        let record = Value::Object(vec![member("a", Value::Object(vec![member("b", integer(1))]))]);
        let words = listing(random, &record);
        listed = vec![("a.b".to_string(), words), ("a".to_string(), words.and(evaluator::words::words([OBJECT])))];
    }
    let path = |random: &mut Random| {
        let path = listed[random.below(listed.len())].0.clone();
        match random.below(8) {
            0 => path.rsplit_once('.').map_or(String::new(), |(front, _)| front.to_string()),
            1 => path + random.pick(&[".a", ".0", ".b"]),
            2 => path + random.pick(&["a", "0", " "]),
            3 => format!("{}{}", random.pick(&["a.", "x", "current.", "accumulator."]), path),
            4 => path.chars().skip(1).filter(|letter| *letter != '.').collect(),
            _ => path,
        }
    };
    let one = path(random);
    let other = path(random);
    let operand = sheets::at(&record, &one).cloned();
    let rule = match random.below(7) {
        0 => operation("===", vec![var(&one), var(&other)]),
        1 => operation("+", vec![var(&one), integer(1)]),
        2 => operation("in", vec![integer(1), var(&one)]),
        3 => operation("reduce", vec![Value::Array(vec![integer(1)]), var(&one), var(&other)]),
        4 => operation("reduce", vec![var(&one), var(&other), var("none")]),
        5 => operation("if", vec![var(&one), var(&one), var(&other)]),
        _ => var(&one),
    };
    let mut record = record;
    if operand.is_some() && random.chance(20) {
        change(random, &listed, &mut record);
    }
    [rule, sheet(random, &listed), record]
}

fn long_sheets(random: &mut Random) -> Triple {
    let (listed, record) = sheets::long(random);
    let scope = scope(&listed, &record);
    let wanted = wanted(random);
    let rule = Maker::new(random).rule(wanted, 5, &scope).rule;
    [rule, sheet(random, &listed), record]
}

/// Rules and answers near a limit, under a sheet that lists what the record has.
fn near_limits(random: &mut Random) -> Triple {
    let make = random.pick(&[
        limits::sums,
        limits::sums,
        limits::deep,
        limits::long,
        limits::tower,
        limits::answer_nesting,
        limits::answer_values,
        limits::answer_bytes,
    ] as &[fn(&mut Random) -> Pair]);
    let (rule, record) = make(random);
    let narrowest = |value: &Value| match sheets::held(value).iter().collect::<Vec<_>>()[..] {
        [first, .., ARRAY] => first,
        [.., last] => last,
        [] => NULL,
    };
    let reached = values::paths(&record).into_iter().skip(1).take(12);
    let listed = reached.map(|(path, _)| {
        let word = narrowest(sheets::at(&record, &path).expect("a path that leads to something"));
        (path, words([if random.chance(80) || word != INTEGERS { word } else { ARRAY }]))
    });
    let mut listed: Listed = listed.collect();
    if random.chance(15) {
        // What no record here has.
        listed.push(("missing".to_string(), words([BOOLEAN])));
    }
    [rule, sheet(random, &listed), record]
}

// ---- texts that are refused

fn nearly_sheets(random: &mut Random) -> Texts {
    let (listed, record, scope) = subject(random);
    let wanted = wanted(random);
    let rule = Maker::new(random).rule(wanted, 5, &scope).rule;
    let mut sheet = sheet(random, &listed);
    for _ in 0..random.pick(&[1, 1, 1, 2]) {
        sheets::misshape(random, &mut sheet);
    }
    let mut texts = [rule, sheet, record].map(|value| spell(random, &value));
    if random.chance(10) {
        damage(random, &mut texts[2]);
    }
    texts
}

fn nearly_rules(random: &mut Random) -> Texts {
    let make = random.pick(&[ordinary, one_operation, reduces] as &[fn(&mut Random) -> Triple]);
    let [mut rule, mut sheet, record] = make(random);
    misshape(random, &mut rule);
    if random.chance(15) {
        sheets::misshape(random, &mut sheet);
    }
    [rule, sheet, record].map(|value| spell(random, &value))
}

fn damaged(random: &mut Random) -> Texts {
    let make = random.pick(&[ordinary, one_operation, near_words, near_limits] as &[fn(&mut Random) -> Triple]);
    let mut texts = spelled(random, make);
    let harm = if random.chance(40) { put_fault } else { damage };
    // Sheet and record more often: a refusal of the rule hides theirs.
    for (text, chance) in texts.iter_mut().zip([20, 50, 50]) {
        if random.chance(chance) {
            harm(random, text);
        }
    }
    if random.chance(10) {
        put_number(random, &mut texts[1]);
    }
    texts
}

/// Puts a number that is refused where a list begins: sheets have no numbers of their own.
fn put_number(random: &mut Random, text: &mut Vec<u8>) {
    let number: &[u8] = random.pick(&[b"1.5,", b"-0.0,", b"2e3,", b"9007199254740992,"]);
    let places: Vec<usize> = (0..text.len()).filter(|&at| text[at] == b'[').collect();
    if !places.is_empty() {
        let after = random.pick(&places) + 1;
        drop(text.splice(after..after, number.iter().copied()));
    }
}

/// Each text of another case of `vectors/`.
fn crossed(random: &mut Random) -> Texts {
    thread_local! {
        static ALL: [Vec<Vec<u8>>; 3] = [Text::Rule, Text::Sheet, Text::Record].map(|wanted| {
            let text = |case: cases::Case| {
                let at = case.entry.texts.iter().position(|text| *text == wanted)?;
                Some(case.texts[at].clone())
            };
            cases::all().into_iter().filter_map(text).collect()
        });
    }
    ALL.with(|all| [0, 1, 2].map(|which| all[which][random.below(all[which].len())].clone()))
}

#[cfg(test)]
mod tests {
    use super::*;
    use evaluator::check::check;
    use evaluator::form::Row;
    use evaluator::rule::Rule;
    use evaluator::sheet::Sheet;

    /// What is made of nothing broken passes, with the words that it was made with.
    #[test]
    fn made_rules_pass() {
        let (mut random, mut whole) = (Random::new(3), 0);
        for _ in 0..20_000 {
            let (listed, _, scope) = subject(&mut random);
            let (allowed, depth) = (wanted(&mut random), random.pick(&[3, 5, 8, 12]));
            let mut maker = Maker::new(&mut random);
            let typed = maker.rule(allowed, depth, &scope);
            if maker.broken {
                continue;
            }
            let forms = [typed.rule, sheet(&mut random, &listed)].map(|value| reader::judge(&value.text()));
            if let [Ok(rule_form), Ok(sheet_form)] = forms {
                let rule = Rule::of_row(Row::root(&rule_form)).unwrap();
                let found = check(&rule, &Sheet::of_row(Row::root(&sheet_form)).unwrap());
                assert_eq!(found, Some(typed.words), "{:?} {:?}", rule, listed);
                assert!(typed.words.pass(allowed));
                whole += 1;
            }
        }
        assert!(whole > 10_000, "only {}", whole);
    }

    #[test]
    fn shares_are_of_a_hundred() {
        assert_eq!(CLASSES.iter().map(|class| class.share).sum::<usize>(), 100);
    }
}
