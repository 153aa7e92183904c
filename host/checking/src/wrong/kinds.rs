//! The kind check.

use super::sheet::{listed, Members, INSTANT, WORDS};
use super::{Slip, Wrong};
use evaluator::dates::{self, Refusal};
use std::collections::BTreeSet;
use writer::value::Value;

/// Spelled words.
pub type Set = BTreeSet<&'static str>;

/// What `var` leads to.
struct Scope<'a> {
    sheet: &'a Members,
    /// The words of `current` and `accumulator`, in a lambda.
    lambda: Option<(Set, Set)>,
}

fn set<const N: usize>(words: [&'static str; N]) -> Set {
    words.into()
}

fn six() -> Set {
    set(["null", "boolean", "integer", "string", "array", "object"])
}

fn seven() -> Set {
    let mut words = six();
    words.insert(INSTANT);
    words
}

fn scalars() -> Set {
    set(["null", "boolean", "integer", "string"])
}

fn union(one: Set, other: Set) -> Set {
    one.into_iter().chain(other).collect()
}

/// The bits of a set.
pub fn bits(words: &Set) -> u64 {
    let all = WORDS.iter().chain([&INSTANT]).enumerate();
    all.filter(|(_, word)| words.contains(*word)).map(|(at, _)| 1 << at).sum()
}

impl Wrong {
    /// The words of a rule under a sheet, if the check passes.
    pub fn kinds(&self, rule: &Value, sheet: &Members) -> Option<Set> {
        let found = self.of_rule(rule, &Scope { sheet, lambda: None });
        match self.slip {
            Slip::AlwaysThirteen => None,
            Slip::AlwaysPasses => Some(found.unwrap_or_else(six)),
            Slip::AlwaysEveryWord => found.map(|_| WORDS.into_iter().chain([INSTANT]).collect()),
            _ => found,
        }
    }

    fn of_rule(&self, rule: &Value, scope: &Scope) -> Option<Set> {
        match rule {
            Value::Boolean(_) => Some(set(["boolean"])),
            Value::Integer(_) => Some(set(["integer"])),
            Value::String(text) => Some(self.of_text(text)),
            Value::Array(items) => self.of_array(items, scope),
            Value::Object(members) => match &members[0] {
                (name, Value::String(path)) if name == b"var" => Some(self.of_path(path, scope)),
                (name, Value::Array(operands)) => {
                    self.of_operation(std::str::from_utf8(name).expect("a name of an operation"), operands, scope)
                }
                _ => unreachable!("a rule's member has operands"),
            },
            _ => unreachable!("null is no rule"),
        }
    }

    fn of_text(&self, text: &[u8]) -> Set {
        let is_day = dates::read_day(text).is_ok() && !self.is(Slip::LiteralNoDay);
        let is_date = match dates::read_date(text) {
            Ok(_) => true,
            Err(Refusal::OutOfRange) => self.is(Slip::LiteralOutOfRange),
            Err(Refusal::NoDate) => false,
        };
        match (is_day, is_date) {
            _ if self.is(Slip::LiteralsAreStrings) => set(["string"]),
            (true, _) => set(["day"]),
            (_, true) => set(["date"]),
            _ => set(["string"]),
        }
    }

    fn of_array(&self, items: &[Value], scope: &Scope) -> Option<Set> {
        let found: Vec<Option<Set>> = items.iter().map(|item| self.of_rule(item, scope)).collect();
        let words: Vec<Set> = match self.slip {
            Slip::ItemsUnchecked => found.into_iter().map(|words| words.unwrap_or_else(six)).collect(),
            _ => found.into_iter().collect::<Option<_>>()?,
        };
        let is_integer = |words: &Set| match self.slip {
            Slip::AnyInteger => words.contains("integer"),
            _ => *words == set(["integer"]),
        };
        let is_string = |words: &Set| match self.slip {
            Slip::StringsExactly => *words == set(["string"]),
            _ => self.pass(words, &set(["string"])),
        };
        Some(match self.slip {
            Slip::EmptyIsArray if words.is_empty() => set(["array"]),
            Slip::EmptyIsStrings if words.is_empty() => set(["strings"]),
            _ if words.iter().all(is_integer) => set(["integers"]),
            _ if words.iter().all(is_string) => set(["strings"]),
            _ => set(["array"]),
        })
    }

    fn of_path(&self, path: &[u8], scope: &Scope) -> Set {
        let first = path.split(|&byte| byte == b'.').next().unwrap_or_default();
        let is_longer = first.len() < path.len();
        let (current, accumulator) = match &scope.lambda {
            None => return self.of_listed(path, scope.sheet),
            Some((current, accumulator)) => (current.clone(), accumulator.clone()),
        };
        let is_listed = scope.sheet.iter().any(|(name, _)| name == path);
        let longer = match self.slip {
            Slip::LongerIsSix => six(),
            Slip::LongerIsNull => set(["null"]),
            _ => seven(),
        };
        match first {
            b"current" | b"accumulator" if is_longer => longer,
            b"current" if self.is(Slip::CurrentIsAccumulator) => accumulator,
            b"current" => current,
            b"accumulator" if self.is(Slip::AccumulatorIsCurrent) => current,
            b"accumulator" => accumulator,
            b"" if self.is(Slip::LambdaEmptyIsAny) => seven(),
            b"" => set(["object"]),
            _ if is_listed && self.is(Slip::LambdaSeesSheet) => self.of_listed(path, scope.sheet),
            other if other.starts_with(b"current") && self.is(Slip::NamesByPrefix) => current,
            _ if self.is(Slip::OtherIsSix) => six(),
            _ => set(["null"]),
        }
    }

    fn of_listed(&self, path: &[u8], sheet: &Members) -> Set {
        let goes_on = |long: &[u8], short: &[u8]| {
            long.starts_with(short) && (long.len() == short.len() || long[short.len()] == b'.')
        };
        let is_listed = |name: &[u8]| match self.slip {
            Slip::PrefixListed => goes_on(path, name),
            Slip::SuffixListed => !path.is_empty() && goes_on(name, path),
            _ => name == path,
        };
        let exactly = sheet.iter().find(|(name, _)| name == path);
        match exactly.or_else(|| sheet.iter().find(|(name, _)| is_listed(name))) {
            Some((_, content)) => listed(content).into_iter().collect(),
            None if path.is_empty() && self.is(Slip::EmptyPathIsObject) => set(["object"]),
            None => match self.slip {
                Slip::UnlistedNull => set(["null"]),
                Slip::UnlistedInstant => seven(),
                Slip::UnlistedNoNull => six().into_iter().filter(|word| *word != "null").collect(),
                _ => six(),
            },
        }
    }

    /// Every word, or a wider one, is allowed.
    fn pass(&self, words: &Set, allowed: &Set) -> bool {
        let passes = |word: &&'static str| {
            let wider: &[&str] = match (*word, self.slip) {
                ("day", Slip::DayNotPassingString) => &["date"],
                ("day", Slip::DayNotPassingDate) => &["string"],
                ("day", _) => &["date", "string"],
                ("date", Slip::DateNotPassingString) => &[],
                ("date", Slip::DatePassesDay) => &["string", "day"],
                ("date", _) => &["string"],
                ("string", Slip::StringPassesDate) => &["date"],
                ("integers", Slip::IntegersNotPassing) | ("strings", Slip::StringsNotPassing) => &[],
                ("integers" | "strings", _) => &["array"],
                ("array", Slip::ArrayPassesIntegers) => &["integers"],
                _ => &[],
            };
            allowed.contains(word) || wider.iter().any(|wide| allowed.contains(wide))
        };
        match self.slip {
            Slip::OneWordPasses => words.iter().any(passes),
            _ => words.iter().all(passes),
        }
    }

    fn of_operation(&self, name: &str, operands: &[Value], scope: &Scope) -> Option<Set> {
        match name {
            "if" => self.of_if(operands, scope),
            "and" => self.of_and(operands, scope),
            "reduce" => self.of_reduce(operands, scope),
            "plusTime" | "extractFromUVCI" => self.of_rules(name, &operands[..1], scope),
            _ => self.of_rules(name, operands, scope),
        }
    }

    fn of_if(&self, operands: &[Value], scope: &Scope) -> Option<Set> {
        let guard = match self.of_rule(&operands[0], scope) {
            None if !self.is(Slip::IfGuardUnchecked) => return None,
            guard => guard.unwrap_or_default(),
        };
        if guard.contains(INSTANT) && self.is(Slip::IfGuardNoInstant) {
            return None;
        }
        let [one, other] = [1, 2].map(|at| self.of_rule(&operands[at], scope));
        match (&operands[0], self.slip) {
            (Value::Boolean(true), Slip::CheckedAsRun) => return one,
            (Value::Boolean(false), Slip::CheckedAsRun) => return other,
            (_, Slip::IfOtherUnchecked) if other.is_none() => return one,
            _ => {}
        }
        let (one, other) = (one?, other?);
        Some(match self.slip {
            Slip::IfFirstBranch => one,
            Slip::IfLastBranch => other,
            Slip::IfWithGuard => union(guard, union(one, other)),
            _ => union(one, other),
        })
    }

    fn of_and(&self, operands: &[Value], scope: &Scope) -> Option<Set> {
        let found = operands.iter().map(|operand| self.of_rule(operand, scope)).collect::<Option<Vec<Set>>>()?;
        let refusing = match self.slip {
            Slip::AndTakesInstant => 0,
            Slip::AndLastTakesInstant => found.len() - 1,
            _ => found.len(),
        };
        if found[..refusing].iter().any(|words| words.contains(INSTANT)) {
            return None;
        }
        Some(match self.slip {
            Slip::AndLastOnly => found[found.len() - 1].clone(),
            Slip::AndFirstOnly => found[0].clone(),
            Slip::AndGivesBoolean => set(["boolean"]),
            _ => found.into_iter().fold(Set::new(), union),
        })
    }

    fn of_reduce(&self, operands: &[Value], scope: &Scope) -> Option<Set> {
        let list = self.of_rule(&operands[0], scope)?;
        let initial = match self.of_rule(&operands[2], scope) {
            None if self.is(Slip::InitialUnchecked) => six(),
            initial => initial?,
        };
        let allowed = match self.slip {
            Slip::ReduceTakesNull => set(["array", "null"]),
            Slip::ReduceTakesAny => seven(),
            _ => set(["array"]),
        };
        if !self.pass(&list, &allowed) {
            return None;
        }
        let of_word = |word: &&str| match (*word, self.slip) {
            ("integers", Slip::ItemsOfIntegers) => seven(),
            ("integers", _) => set(["integer"]),
            ("strings", _) => set(["string"]),
            (_, Slip::ItemsWithoutInstant) => six(),
            _ => seven(),
        };
        let current = match self.slip {
            Slip::FirstArrayOnly => list.iter().next_back().map(of_word).unwrap_or_default(),
            _ => list.iter().map(of_word).fold(Set::new(), union),
        };
        let current = match (&scope.lambda, self.slip) {
            (Some((outer, _)), Slip::LambdaSeesOuter) => outer.clone(),
            _ => current,
        };
        let lambda = Scope { sheet: scope.sheet, lambda: Some((current, initial.clone())) };
        let found = match self.of_rule(&operands[1], &lambda) {
            None if self.is(Slip::LambdaUnchecked) => initial.clone(),
            found => found?,
        };
        let passes = match self.slip {
            Slip::LambdaAnyWords => true,
            Slip::LambdaSameWords => found == initial,
            _ => self.pass(&found, &initial),
        };
        let result = match self.slip {
            Slip::ResultOfLambda => found,
            Slip::ResultOfBoth => union(found, initial),
            _ => initial,
        };
        Some(result).filter(|_| passes)
    }

    /// Operations that allow each operand something, and give words that do not depend on them.
    fn of_rules(&self, name: &str, operands: &[Value], scope: &Scope) -> Option<Set> {
        let found = operands.iter().map(|operand| self.of_rule(operand, scope)).collect::<Option<Vec<Set>>>()?;
        let passes = |(at, words): (usize, &Set)| match (name, self.slip) {
            ("!", Slip::NotTakesInstant) => true,
            ("!", Slip::NotNeedsBoolean) => self.pass(words, &set(["boolean"])),
            ("!", _) => !words.contains(INSTANT),
            ("in", Slip::InNoIntegers) if at == 1 => *words == set(["array"]),
            ("plusTime", Slip::PlusTimeNeedsDate) => *words == set(["date"]),
            _ if at == 2 && self.is(Slip::ThirdUnchecked) => true,
            _ => self.pass(words, &self.allowed(name, at)),
        };
        let gives = match (name, self.slip) {
            ("+", Slip::PlusGivesString) => set(["integer", "string"]),
            ("+", _) => set(["integer"]),
            ("plusTime", Slip::PlusTimeGivesDate) => set(["date"]),
            ("plusTime" | "dccDateOfBirth", _) => set([INSTANT]),
            ("extractFromUVCI", Slip::UvciGivesString) => set(["string"]),
            ("extractFromUVCI", _) => set(["null", "string"]),
            _ => set(["boolean"]),
        };
        Some(gives).filter(|_| found.iter().enumerate().all(passes))
    }

    /// What an operation allows an operand.
    fn allowed(&self, name: &str, at: usize) -> Set {
        match (name, self.slip) {
            ("===", Slip::EqualTakesArrays) => union(scalars(), set(["array"])),
            ("===", Slip::EqualTakesInstants) => union(scalars(), set([INSTANT])),
            ("===", Slip::EqualNoNull) => set(["boolean", "integer", "string"]),
            ("===", _) => scalars(),
            ("in", Slip::InTakesArrays) if at == 0 => union(scalars(), set(["array"])),
            ("in", _) if at == 0 => scalars(),
            ("in", Slip::InTakesStrings) => set(["array", "string"]),
            ("in", _) => set(["array"]),
            ("+", Slip::PlusTakesStrings) => set(["integer", "string"]),
            ("+", _) => set(["integer"]),
            (">" | "<" | ">=" | "<=", Slip::SignsTakeInstants) => set(["integer", INSTANT]),
            (">" | "<" | ">=" | "<=", _) => set(["integer"]),
            ("plusTime", Slip::PlusTimeTakesStrings) => set(["string"]),
            ("plusTime", Slip::PlusTimeTakesInstants) => set(["date", INSTANT]),
            ("plusTime", _) => set(["date"]),
            ("dccDateOfBirth", Slip::BirthTakesDates) => set(["date"]),
            ("dccDateOfBirth", _) => set(["day"]),
            ("extractFromUVCI", Slip::UvciNoNull) => set(["string"]),
            ("extractFromUVCI", Slip::UvciTakesAny) => scalars(),
            ("extractFromUVCI", _) => set(["null", "string"]),
            (_, Slip::WordsTakeDates) => set([INSTANT, "date"]),
            (_, Slip::WordsTakeIntegers) => set([INSTANT, "integer"]),
            _ => set([INSTANT]),
        }
    }
}
