//! Random rules, most of which pass the check under the sheet that they are made for.

use evaluation::rules::{operation, var, DATE_WORDS, SIGNS};
use evaluation::values::{any_integer, any_string, date_text, day_text, integer, string, uvci_text};
use evaluator::check::{array, items, literal};
use evaluator::dates;
use evaluator::value;
use evaluator::words::*;
use harness::random::Random;
use writer::value::Value;

/// What `var` can reach: paths, and their words.
pub struct Scope {
    pub paths: Vec<(String, Words)>,
    pub in_lambda: bool,
}

/// A rule, and the words that the check finds for it, unless something within it is broken.
pub struct Typed {
    pub rule: Value,
    pub words: Words,
}

impl Typed {
    fn new(rule: Value, words: Words) -> Typed {
        Typed { rule, words }
    }
}

const UNITS: [&str; 4] = ["year", "month", "day", "hour"];

/// All eleven.
pub fn every_word() -> Words {
    Word::all().collect()
}

pub fn any_word(random: &mut Random) -> Word {
    random.pick(&Word::all().collect::<Vec<_>>())
}

/// One word or a few.
pub fn some_words(random: &mut Random) -> Words {
    (0..random.pick(&[1, 1, 1, 2, 3])).map(|_| any_word(random)).collect()
}

/// A date text in one of the nineteen forms, in range; most often with a time.
pub fn good_date(random: &mut Random) -> Value {
    let texts = (0..4).map(|_| date_text(random)).collect::<Vec<_>>();
    let good = texts.into_iter().find(|text| dates::read_date(text).is_ok());
    Value::String(good.unwrap_or_else(|| b"2020-01-31T10:20:30.5+01:00".to_vec()))
}

pub fn good_day(random: &mut Random) -> Value {
    let texts = (0..4).map(|_| day_text(random)).collect::<Vec<_>>();
    let good = texts.into_iter().find(|text| dates::read_day(text).is_ok());
    Value::String(good.unwrap_or_else(|| b"2020-02-29".to_vec()))
}

pub struct Maker<'a> {
    pub random: &'a mut Random,
    /// Percent of rules that are of any words, whatever is wanted.
    pub wrong: usize,
    /// Percent of operations that are `reduce`.
    pub reducing: usize,
    /// How many rules may still be begun.
    pub left: usize,
    /// Something was made that may not pass where it stands.
    pub broken: bool,
}

impl<'a> Maker<'a> {
    pub fn new(random: &'a mut Random) -> Maker<'a> {
        let wrong = random.pick(&[0, 0, 0, 0, 2, 6]);
        let left = random.pick(&[2, 5, 10, 10, 20, 40, 80]);
        Maker { random, wrong, reducing: 8, left, broken: false }
    }

    /// A rule whose words pass where these are allowed, that nests at most so deep.
    pub fn rule(&mut self, mut allowed: Words, depth: usize, scope: &Scope) -> Typed {
        if self.random.chance(self.wrong) {
            self.broken = true;
            allowed = some_words(self.random);
        }
        self.left = self.left.saturating_sub(1);
        if depth < 2 || self.left == 0 || self.random.chance(15) {
            return self.leaf(allowed, depth, scope);
        }
        if self.random.chance(self.reducing) {
            return self.reduce(allowed, depth, scope);
        }
        match self.random.below(10) {
            0 => {
                let guard = self.rule(every_word(), depth - 2, scope);
                let (one, other) = (self.rule(allowed, depth - 2, scope), self.rule(allowed, depth - 2, scope));
                Typed::new(operation("if", vec![guard.rule, one.rule, other.rule]), one.words.and(other.words))
            }
            1 => {
                let without = Words(allowed.0 & !words([INSTANT]).0);
                if without == Words::default() {
                    return self.of_its_own(allowed, depth, scope);
                }
                let operands: Vec<Typed> =
                    (0..self.random.between(2, 4)).map(|_| self.rule(without, depth - 2, scope)).collect();
                let words = operands.iter().fold(Words::default(), |all, operand| all.and(operand.words));
                Typed::new(operation("and", rules(operands)), words)
            }
            _ => self.of_its_own(allowed, depth, scope),
        }
    }

    fn one_of(&mut self, allowed: Words) -> Word {
        self.random.pick(&allowed.iter().collect::<Vec<_>>())
    }

    fn apply(&mut self, name: &str, allowed: &[Words], depth: usize, scope: &Scope) -> Value {
        operation(name, allowed.iter().map(|allowed| self.rule(*allowed, depth - 2, scope).rule).collect())
    }

    /// A rule of an operation that gives an allowed word by itself.
    fn of_its_own(&mut self, allowed: Words, depth: usize, scope: &Scope) -> Typed {
        match self.one_of(allowed) {
            BOOLEAN => Typed::new(self.test(depth, scope), words([BOOLEAN])),
            INTEGER => Typed::new(self.apply("+", &[words([INTEGER]); 2], depth, scope), words([INTEGER])),
            INSTANT => Typed::new(self.instant(depth, scope), words([INSTANT])),
            NULL | STRING if words([NULL, STRING]).pass(allowed) => {
                let operand = self.random.pick(&[words([STRING]), words([NULL, STRING])]);
                let text = self.rule(operand, depth - 2, scope).rule;
                let index = self.random.below(6) as i64 - 1;
                Typed::new(operation("extractFromUVCI", vec![text, integer(index)]), words([NULL, STRING]))
            }
            word @ (INTEGERS | STRINGS | ARRAY) => self.array(word, depth, scope),
            _ => self.leaf(allowed, depth, scope),
        }
    }

    fn array(&mut self, word: Word, depth: usize, scope: &Scope) -> Typed {
        let of_item = match word {
            INTEGERS => words([INTEGER]),
            STRINGS => words([STRING]),
            _ => every_word(),
        };
        // An array of no items has the word integers, which does not pass as strings.
        let least = usize::from(word == STRINGS);
        let count = self.random.pick(&[0, 1, 2, 2, 3, 5]).max(least);
        let made: Vec<Typed> = (0..count).map(|_| self.rule(of_item, depth - 1, scope)).collect();
        let found = array(&made.iter().map(|item| item.words).collect::<Vec<_>>());
        Typed::new(Value::Array(rules(made)), words([found]))
    }

    /// An operation that gives a boolean.
    fn test(&mut self, depth: usize, scope: &Scope) -> Value {
        let number = self.random.pick(&[2, 2, 3]);
        let scalar = |random: &mut Random| {
            let narrow = words([random.pick(&[NULL, BOOLEAN, INTEGER, INTEGER, STRING, STRING, DAY])]);
            if random.chance(60) {
                narrow
            } else {
                scalars()
            }
        };
        let one = scalar(self.random);
        match self.random.below(10) {
            0..=2 => {
                let other = if self.random.chance(70) { one } else { scalars() };
                self.apply("===", &[one, other], depth, scope)
            }
            3..=4 => {
                let list = self.random.pick(&[INTEGERS, STRINGS, ARRAY]);
                self.apply("in", &[one, words([list])], depth, scope)
            }
            5..=6 => {
                let name = self.random.pick(&SIGNS);
                self.apply(name, &[words([INTEGER]); 3][..number], depth, scope)
            }
            7..=8 if depth >= 4 => {
                let name = self.random.pick(&DATE_WORDS);
                self.apply(name, &[words([INSTANT]); 3][..number], depth, scope)
            }
            _ => self.apply("!", &[Words(every_word().0 & !words([INSTANT]).0)], depth, scope),
        }
    }

    fn instant(&mut self, depth: usize, scope: &Scope) -> Value {
        if self.random.chance(30) {
            return self.apply("dccDateOfBirth", &[words([DAY])], depth, scope);
        }
        let text = self.rule(words([DATE]), depth - 2, scope).rule;
        self.plus_time(text)
    }

    fn plus_time(&mut self, text: Value) -> Value {
        let amount = match self.random.below(12) {
            0 => any_integer(self.random),
            _ => self.random.below(60) as i64 - 30,
        };
        operation("plusTime", vec![text, integer(amount), string(self.random.pick(&UNITS))])
    }

    /// A `reduce` whose words pass.
    pub fn reduce(&mut self, allowed: Words, depth: usize, scope: &Scope) -> Typed {
        let lists = self.random.pick(&[
            words([INTEGERS]),
            words([INTEGERS]),
            words([STRINGS]),
            words([ARRAY]),
            words([INTEGERS, STRINGS]),
        ]);
        let operand = self.rule(lists, depth - 2, scope);
        let initial = self.rule(allowed, depth - 2, scope);
        let (current, accumulator) = (items(operand.words), initial.words);
        let sum = operation("+", vec![var("current"), var("accumulator")]);
        let lambda = match self.random.below(8) {
            0 => var("accumulator"),
            1..=2 if [current, accumulator] == [words([INTEGER]); 2] => sum,
            3 if current.pass(accumulator) => var("current"),
            _ => self.rule(accumulator, depth - 2, &lambda_scope(current, accumulator, scope)).rule,
        };
        Typed::new(operation("reduce", vec![operand.rule, lambda, initial.rule]), initial.words)
    }

    /// A literal, a `var`, or what is as small.
    fn leaf(&mut self, allowed: Words, depth: usize, scope: &Scope) -> Typed {
        let reached: Vec<&(String, Words)> = match depth {
            0 => Vec::new(),
            _ => scope.paths.iter().filter(|(_, words)| words.pass(allowed)).collect(),
        };
        if !reached.is_empty() && self.random.chance(65) {
            let (path, words) = self.random.pick(&reached);
            return Typed::new(var(path), *words);
        }
        let mut wanted: Vec<Word> = allowed.iter().collect();
        while !wanted.is_empty() {
            let word = wanted.swap_remove(self.random.below(wanted.len()));
            if let Some(typed) = self.small(word, depth, scope) {
                return typed;
            }
        }
        if !reached.is_empty() {
            let (path, words) = self.random.pick(&reached);
            return Typed::new(var(path), *words);
        }
        self.broken = true;
        Typed::new(integer(any_integer(self.random)), words([INTEGER]))
    }

    /// Something small of a word, if there is such a thing.
    fn small(&mut self, word: Word, depth: usize, scope: &Scope) -> Option<Typed> {
        let scalar = match word {
            BOOLEAN => Value::Boolean(self.random.chance(50)),
            INTEGER => integer(any_integer(self.random)),
            STRING if self.random.chance(20) => string(&uvci_text(self.random)),
            STRING => string(&any_string(self.random)),
            DATE => good_date(self.random),
            DAY => good_day(self.random),
            INSTANT if depth >= 2 && self.random.chance(30) => {
                return Some(Typed::new(operation("dccDateOfBirth", vec![good_day(self.random)]), words([INSTANT])));
            }
            INSTANT if depth >= 2 => {
                let text = good_date(self.random);
                return Some(Typed::new(self.plus_time(text), words([INSTANT])));
            }
            INTEGERS | STRINGS | ARRAY if depth >= 1 => return Some(self.array(word, depth, scope)),
            NULL if depth >= 1 && scope.in_lambda => return Some(Typed::new(var("none"), words([NULL]))),
            OBJECT if depth >= 1 && scope.in_lambda => return Some(Typed::new(var(""), words([OBJECT]))),
            _ => return None,
        };
        let found = literal(&value::Value::from(&scalar));
        Some(Typed::new(scalar, words([found])))
    }
}

fn rules(made: Vec<Typed>) -> Vec<Value> {
    made.into_iter().map(|typed| typed.rule).collect()
}

/// What a lambda's `var` can reach. What it could outside leads to null there.
fn lambda_scope(current: Words, accumulator: Words, outside: &Scope) -> Scope {
    let mut paths = vec![
        ("current".to_string(), current),
        ("accumulator".to_string(), accumulator),
        ("current".to_string(), current),
        (String::new(), words([OBJECT])),
        ("none".to_string(), words([NULL])),
    ];
    paths.extend(["current.0", "accumulator.a", "current.current"].map(|path| (path.to_string(), any_value())));
    let begins = |path: &str| path.is_empty() || path.starts_with("current") || path.starts_with("accumulator");
    let seen = outside.paths.iter().filter(|(path, _)| !begins(path)).take(4);
    paths.extend(seen.map(|(path, _)| (path.clone(), words([NULL]))));
    Scope { paths, in_lambda: true }
}
