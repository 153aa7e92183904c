//! Random rules, most of which run well on the record that they are made for.

use crate::date_texts;
use crate::dates;
use crate::random::Random;
use crate::values::{
    any_integer, any_string, date_text, day_text, integer, string, uvci_text, Kind, KINDS, MAX_INTEGER,
};
use writer::value::Value;

pub const SIGNS: [&str; 4] = [">", "<", ">=", "<="];
pub const DATE_WORDS: [&str; 4] = ["after", "before", "not-after", "not-before"];
const UNITS: [&str; 4] = ["year", "month", "day", "hour"];
pub const SCALARS: [Kind; 6] = [Kind::Null, Kind::Boolean, Kind::Integer, Kind::Integer, Kind::String, Kind::Day];

pub fn operation(name: &str, operands: Vec<Value>) -> Value {
    Value::Object(vec![(name.as_bytes().to_vec(), Value::Array(operands))])
}

pub fn var(path: &str) -> Value {
    Value::Object(vec![(b"var".to_vec(), string(path))])
}

/// Fragments for odd paths: indexes, what nearly is one, and names.
#[rustfmt::skip]
const FRAGMENTS: [&str; 28] = [
    "0", "1", "2", "3", "4", "10", "11", "00", "01", "-1", "+1", " 0", "0x0", "1.0", "٣", "4294967296", "4294967297",
    "18446744073709551616", "18446744073709551617", "99999999999999999999999999999999999999999", "length", "x", "a",
    "a b", "current", "accumulator", "current.current", "accumulator.0",
];

/// What `var` can reach: paths, and the kinds of what they lead to.
pub type Scope = [(String, Kind)];

pub struct Maker<'a> {
    pub random: &'a mut Random,
    /// Percent of operands that are of any kind, whatever is wanted.
    pub wrong: usize,
    /// Percent of paths that are odd.
    pub odd: usize,
    /// Percent of operations that are `reduce`.
    pub reducing: usize,
    /// Only one operand of each operation may nest deep.
    pub narrow: bool,
    /// How many rules may still be begun.
    pub left: usize,
}

impl<'a> Maker<'a> {
    pub fn new(random: &'a mut Random) -> Maker<'a> {
        let wrong = random.pick(&[0, 0, 0, 2, 5, 20]);
        let odd = random.pick(&[0, 2, 10]);
        let left = random.pick(&[2, 5, 10, 10, 20, 20, 40, 100]);
        Maker { random, wrong, odd, reducing: 8, narrow: false, left }
    }

    /// A rule of this kind, that nests at most so deep.
    pub fn rule(&mut self, wanted: Kind, depth: usize, scope: &Scope) -> Value {
        let kind = if self.random.chance(self.wrong) { self.random.pick(&KINDS) } else { wanted };
        self.left = self.left.saturating_sub(1);
        if depth < 2 || self.left == 0 || !self.narrow && self.random.chance(20) {
            return self.leaf(kind, depth, scope);
        }
        if self.random.chance(self.reducing) {
            return self.reduce(kind, depth, scope);
        }
        match self.random.below(10) {
            0 => {
                let guard = self.any_kind();
                self.apply("if", &[guard, kind, kind], depth, scope)
            }
            1 => {
                let mut kinds: Vec<Kind> = (0..self.random.between(1, 3)).map(|_| self.any_kind()).collect();
                kinds.push(kind);
                self.apply("and", &kinds, depth, scope)
            }
            _ => self.of_its_own(kind, depth, scope),
        }
    }

    fn any_kind(&mut self) -> Kind {
        self.random.pick(&KINDS)
    }

    /// An operation with operands of these kinds.
    fn apply(&mut self, name: &str, kinds: &[Kind], depth: usize, scope: &Scope) -> Value {
        operation(name, self.rules(kinds, depth - 2, scope))
    }

    fn rules(&mut self, kinds: &[Kind], depth: usize, scope: &Scope) -> Vec<Value> {
        let deep = self.random.below(kinds.len().max(1));
        let mut made = Vec::new();
        for (at, &kind) in kinds.iter().enumerate() {
            let narrow = self.narrow;
            if narrow && at != deep {
                self.narrow = false;
                let shallow = self.random.below(depth.min(4) + 1);
                made.push(self.rule(kind, shallow, scope));
            } else {
                made.push(self.rule(kind, depth, scope));
            }
            self.narrow = narrow;
        }
        made
    }

    /// A rule of an operation that gives this kind by itself.
    fn of_its_own(&mut self, kind: Kind, depth: usize, scope: &Scope) -> Value {
        match kind {
            Kind::Boolean => self.test(depth, scope),
            Kind::Integer => self.apply("+", &[Kind::Integer, Kind::Integer], depth, scope),
            Kind::Instant => self.instant(depth, scope),
            Kind::String | Kind::Null => {
                let operand = if kind == Kind::Null { Kind::Null } else { Kind::Uvci };
                let text = self.rule(operand, depth - 2, scope);
                operation("extractFromUVCI", vec![text, integer(self.index())])
            }
            Kind::Integers | Kind::Strings | Kind::Array => {
                let count = self.random.pick(&[0, 1, 2, 2, 3, 5]);
                let kinds: Vec<Kind> = (0..count).map(|_| self.item(kind)).collect();
                Value::Array(self.rules(&kinds, depth - 1, scope))
            }
            Kind::Date | Kind::Day | Kind::Uvci | Kind::Object => self.leaf(kind, depth, scope),
        }
    }

    /// The kind of an item.
    fn item(&mut self, of: Kind) -> Kind {
        match of {
            Kind::Integers => Kind::Integer,
            Kind::Strings => self.random.pick(&[Kind::String, Kind::Date, Kind::Day, Kind::Uvci]),
            _ => self.any_kind(),
        }
    }

    fn index(&mut self) -> i64 {
        match self.random.below(10) {
            0 => self.random.pick(&[MAX_INTEGER, -MAX_INTEGER, 1 << 32, (1 << 32) + 1, 1 << 31, -1, -(1 << 32)]),
            _ => self.random.below(8) as i64 - 1,
        }
    }

    /// An operation that gives a boolean.
    fn test(&mut self, depth: usize, scope: &Scope) -> Value {
        let number = self.random.pick(&[2, 2, 3]);
        match self.random.below(10) {
            0..=1 => {
                let kind = self.random.pick(&SCALARS);
                let other = if self.random.chance(80) { kind } else { self.random.pick(&SCALARS) };
                self.apply("===", &[kind, other], depth, scope)
            }
            2..=3 => {
                let (kind, items) = self.random.pick(&[
                    (Kind::Integer, Kind::Integers),
                    (Kind::String, Kind::Strings),
                    (Kind::Null, Kind::Array),
                ]);
                let kind = if items == Kind::Array { self.random.pick(&SCALARS) } else { kind };
                self.apply("in", &[kind, items], depth, scope)
            }
            4..=5 => {
                let name = self.random.pick(&SIGNS);
                self.apply(name, &[Kind::Integer; 3][..number], depth, scope)
            }
            6..=7 => {
                let name = self.random.pick(&DATE_WORDS);
                if depth < 4 || self.random.chance(40) {
                    return self.apply(name, &[Kind::Instant; 3][..number], depth, scope);
                }
                let text = Value::String(date_text(self.random));
                operation(name, (0..number).map(|_| self.near(&text)).collect())
            }
            _ => {
                let kind = self.any_kind();
                self.apply("!", &[kind], depth, scope)
            }
        }
    }

    /// An instant near that of a date text.
    fn near(&mut self, text: &Value) -> Value {
        let amount = self.random.pick(&[0, 0, 0, 1, -1, 12, 24, 365]);
        operation("plusTime", vec![text.clone(), integer(amount), string(self.random.pick(&UNITS))])
    }

    fn instant(&mut self, depth: usize, scope: &Scope) -> Value {
        if self.random.chance(30) {
            return self.apply("dccDateOfBirth", &[Kind::Day], depth, scope);
        }
        let text = self.rule(Kind::Date, depth - 2, scope);
        self.plus_time(text)
    }

    /// `plusTime` by an amount that leads to the edges of the range now and then.
    pub fn plus_time(&mut self, text: Value) -> Value {
        let unit = self.random.below(UNITS.len());
        let from = match &text {
            Value::String(text) => dates::read_date(text).unwrap_or(0),
            _ => 0,
        };
        let amount = match self.random.below(4) {
            0 => 0,
            1 => self.random.below(60) as i64 - 30,
            _ => date_texts::amount(self.random, from, unit as u32).clamp(-MAX_INTEGER, MAX_INTEGER),
        };
        operation("plusTime", vec![text, integer(amount), string(UNITS[unit])])
    }

    /// A `reduce` that gives this kind.
    pub fn reduce(&mut self, kind: Kind, depth: usize, scope: &Scope) -> Value {
        let list = self.random.pick(&[Kind::Integers, Kind::Integers, Kind::Strings, Kind::Array]);
        let operands = self.rules(&[list, kind], depth - 2, scope);
        let current = self.item(list);
        let lambda = match (self.random.below(12), kind) {
            (0..=3, Kind::Integer) => operation("+", vec![var("current"), var("accumulator")]),
            (0..=3, Kind::Array) => Value::Array(vec![var("accumulator"), var("current")]),
            (0..=3, Kind::Boolean) => operation("and", vec![var("accumulator"), var("current")]),
            (4, _) => var(""),
            (5, _) => var("accumulator"),
            (6, _) => var("current"),
            _ => self.rule(kind, depth - 2, &lambda_scope(current, kind)),
        };
        let mut operands = operands.into_iter();
        let (operand, initial) = (operands.next().unwrap(), operands.next().unwrap());
        operation("reduce", vec![operand, lambda, initial])
    }

    /// A literal, a `var`, or what is as small.
    fn leaf(&mut self, kind: Kind, depth: usize, scope: &Scope) -> Value {
        if depth >= 1 {
            if self.random.chance(self.odd) {
                return var(&self.odd_path(scope));
            }
            let fitting: Vec<&str> =
                scope.iter().filter(|(_, of)| of.serves(kind)).map(|(path, _)| &path[..]).collect();
            if !fitting.is_empty() && self.random.chance(60) {
                return var(self.random.pick(&fitting));
            }
        }
        match kind {
            Kind::Boolean => Value::Boolean(self.random.chance(50)),
            Kind::Integer => integer(any_integer(self.random)),
            Kind::String => string(&any_string(self.random)),
            Kind::Date => Value::String(date_text(self.random)),
            Kind::Day => Value::String(day_text(self.random)),
            Kind::Uvci => string(&uvci_text(self.random)),
            Kind::Instant if depth >= 2 && self.random.chance(30) => {
                operation("dccDateOfBirth", vec![Value::String(day_text(self.random))])
            }
            Kind::Instant if depth >= 2 => {
                let text = Value::String(date_text(self.random));
                self.plus_time(text)
            }
            Kind::Integers | Kind::Strings | Kind::Array if depth >= 1 => {
                let count = self.random.below(5);
                let kinds: Vec<Kind> = (0..count).map(|_| self.item(kind)).collect();
                Value::Array(kinds.into_iter().map(|kind| self.leaf(kind, depth - 1, scope)).collect())
            }
            Kind::Null | Kind::Object if depth >= 1 => var(self.random.pick(&["none", "a.none", "0", "", "5.a"])),
            _ => integer(any_integer(self.random)),
        }
    }

    /// A path that nearly leads to something, or to nothing.
    pub fn odd_path(&mut self, scope: &Scope) -> String {
        let random = &mut *self.random;
        let mut path = if scope.is_empty() { String::new() } else { scope[random.below(scope.len())].0.clone() };
        match random.below(8) {
            0 => {
                path.pop();
                if path.ends_with('.') {
                    path.pop();
                }
            }
            1 => path.push(random.pick(&['a', '0', ' ', 'é', '1'])),
            2 => path = random.pick(&FRAGMENTS).to_string(),
            3..=4 => {
                // Another last fragment.
                path.truncate(path.rfind('.').map_or(0, |dot| dot + 1));
                path += random.pick(&FRAGMENTS);
            }
            5 => {
                // The last fragment with a zero before it.
                let last = path.rfind('.').map_or(0, |dot| dot + 1);
                path.insert_str(last, random.pick(&["0", "00", "+", "-"]));
            }
            _ => {
                if !path.is_empty() {
                    path.push('.');
                }
                path += random.pick(&FRAGMENTS);
            }
        }
        path
    }
}

/// What a lambda's `var` can reach.
pub fn lambda_scope(current: Kind, accumulator: Kind) -> Vec<(String, Kind)> {
    let mut scope: Vec<(String, Kind)> = Vec::new();
    for (name, kind) in [("current", current), ("accumulator", accumulator)] {
        scope.push((name.to_string(), kind));
        match kind {
            Kind::Integers => scope.push((format!("{}.0", name), Kind::Integer)),
            Kind::Strings => scope.push((format!("{}.0", name), Kind::String)),
            Kind::Array => scope.extend([(format!("{}.0", name), Kind::Array), (format!("{}.1", name), Kind::Integer)]),
            Kind::Object => {
                scope.extend([(format!("{}.current", name), current), (format!("{}.accumulator", name), accumulator)])
            }
            _ => {}
        }
    }
    scope.push((String::new(), Kind::Object));
    scope
}
