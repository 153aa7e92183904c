//! The run of a rule.

use super::{Slip, Wrong};
use crate::dates::{self, Refusal, Unit, EARLIEST, LATEST};
use std::rc::Rc;
use writer::value::Value;

const MAX_INTEGER: i128 = reader::MAX_INTEGER as i128;
const MS_PER_DAY: i64 = 86_400_000;

/// A value of the run.
#[derive(Clone)]
pub enum Item<'a> {
    Null,
    Boolean(bool),
    Integer(i128),
    String(&'a [u8]),
    Instant(i64),
    /// An array or object of the record.
    Read(&'a Value),
    List(Rc<Vec<Item<'a>>>),
    /// The current and the accumulator of a lambda.
    Context(Rc<[Item<'a>; 2]>),
}

pub type Result<'a> = std::result::Result<Item<'a>, u32>;

impl<'a> Item<'a> {
    pub fn of(value: &'a Value) -> Item<'a> {
        match value {
            Value::Null => Item::Null,
            Value::Boolean(boolean) => Item::Boolean(*boolean),
            Value::Integer(integer) => Item::Integer(*integer),
            Value::String(bytes) => Item::String(bytes),
            Value::Instant(ms) => Item::Instant(*ms),
            Value::Array(_) | Value::Object(_) => Item::Read(value),
        }
    }

    /// The items of an array.
    fn items(&self) -> Option<Vec<Item<'a>>> {
        match self {
            Item::Read(Value::Array(items)) => Some(items.iter().map(Item::of).collect()),
            Item::List(items) => Some(items.to_vec()),
            _ => None,
        }
    }

    fn is_scalar(&self) -> bool {
        matches!(self, Item::Null | Item::Boolean(_) | Item::Integer(_) | Item::String(_))
    }
}

struct Runner<'a> {
    wrong: Wrong,
    limit: u64,
    steps: u64,
    /// The context of the whole rule.
    record: Item<'a>,
}

impl Wrong {
    /// The value or refusal of a run, and its steps.
    pub fn run<'a>(&self, rule: &'a Value, record: &'a Value, limit: u64) -> (Result<'a>, u64) {
        let limit = match self.slip {
            Slip::LimitRunsOver => limit + 1,
            Slip::LimitRunsShort => limit.saturating_sub(1),
            Slip::ZeroIsNoLimit if limit == 0 => 5_000,
            _ => limit,
        };
        let record = Item::of(record);
        let mut runner = Runner { wrong: *self, limit, steps: 0, record: record.clone() };
        let result = runner.rule(rule, &record);
        (result, runner.steps)
    }
}

impl<'a> Runner<'a> {
    fn is(&self, slip: Slip) -> bool {
        self.wrong.slip == slip
    }

    fn step(&mut self) -> std::result::Result<(), u32> {
        if self.steps >= self.limit {
            return Err(10);
        }
        self.steps += 1;
        Ok(())
    }

    fn rule(&mut self, rule: &'a Value, context: &Item<'a>) -> Result<'a> {
        let is_free = match rule {
            Value::Array(_) => self.is(Slip::ArraysFree),
            Value::Object(members) => {
                self.is(Slip::VarsFree) && matches!(members.first(), Some((name, _)) if name == b"var")
            }
            _ => self.is(Slip::LiteralsFree),
        };
        let is_late = self.is(Slip::StepsWhenDone);
        if !is_free && !is_late {
            self.step()?;
        }
        let value = match rule {
            Value::Array(items) => Item::List(Rc::new(self.all(items, context)?)),
            Value::Object(members) => match members.first() {
                None => Item::Read(rule),
                Some((name, content)) => {
                    let operands = match content {
                        Value::Array(operands) => &operands[..],
                        bare => std::slice::from_ref(bare),
                    };
                    self.operation(self.wrong.operation(name).ok_or(6_u32)?, operands, context)?
                }
            },
            scalar => Item::of(scalar),
        };
        if is_late {
            self.step()?;
        }
        Ok(value)
    }

    fn all(&mut self, rules: &'a [Value], context: &Item<'a>) -> std::result::Result<Vec<Item<'a>>, u32> {
        rules.iter().map(|rule| self.rule(rule, context)).collect()
    }

    /// An operand by its number; null if there is none.
    fn operand(&mut self, operands: &'a [Value], at: usize, context: &Item<'a>) -> Result<'a> {
        operands.get(at).map_or(Ok(Item::Null), |operand| self.rule(operand, context))
    }

    fn operation(&mut self, name: &str, operands: &'a [Value], context: &Item<'a>) -> Result<'a> {
        match name {
            "var" => Ok(self.var(operands.first(), context)),
            "if" => self.branch(operands, context),
            "and" => self.and(operands, context),
            "reduce" => self.reduce(operands, context),
            "plusTime" | "extractFromUVCI" => {
                if self.is(Slip::BareCounted) {
                    (1..operands.len()).try_for_each(|_| self.step())?;
                }
                let operand = self.operand(operands, 0, context)?;
                let number = match operands.get(1) {
                    Some(Value::Integer(integer)) => *integer as i64,
                    _ => 0,
                };
                match operands.get(2) {
                    Some(unit) if name == "plusTime" => self.plus_time(operand, number, unit),
                    _ => self.fragment(operand, number),
                }
            }
            "===" | "in" | "+" => {
                let first = self.operand(operands, 0, context)?;
                let is_early = match name {
                    "===" => self.is(Slip::EqualTestsEarly) && !first.is_scalar(),
                    "in" => self.is(Slip::InTestsEarly) && !first.is_scalar(),
                    _ => self.is(Slip::PlusTestsEarly) && !matches!(first, Item::Integer(_)),
                };
                if is_early {
                    return Err(7);
                }
                let second = self.operand(operands, 1, context)?;
                self.all(operands.get(2..).unwrap_or(&[]), context)?;
                match name {
                    "===" => self.equality(&first, &second).map(Item::Boolean),
                    "in" => self.membership(&first, &second).map(Item::Boolean),
                    _ => self.sum(first, second),
                }
            }
            "!" => {
                let operand = self.operand(operands, 0, context)?;
                match self.truth(&operand) {
                    Some(truth) => Ok(Item::Boolean(!truth)),
                    None if self.is(Slip::NotTakesInstant) => Ok(Item::Boolean(false)),
                    None => Err(7),
                }
            }
            "dccDateOfBirth" => match self.operand(operands, 0, context)? {
                Item::String(text) => {
                    let read = if self.is(Slip::BirthTakesTimes) { dates::read_date } else { dates::read_day };
                    self.date(read, text).map(Item::Instant)
                }
                instant @ Item::Instant(_) if self.is(Slip::BirthTakesInstant) => Ok(instant),
                _ => Err(7),
            },
            comparison => self.comparison(comparison, operands, context),
        }
    }

    /// Truthy or falsy; None for an instant.
    fn truth(&self, item: &Item) -> Option<bool> {
        Some(match item {
            Item::Instant(_) => return None,
            Item::Null => self.is(Slip::NullTruthy),
            Item::Boolean(boolean) => *boolean,
            Item::Integer(0) => self.is(Slip::ZeroTruthy),
            Item::Integer(integer) => *integer > 0 || !self.is(Slip::NegativeFalsy),
            Item::String(b"") => self.is(Slip::EmptyStringTruthy),
            Item::String(bytes) => *bytes != b"0" || !self.is(Slip::ZeroStringFalsy),
            Item::Read(Value::Array(items)) => !items.is_empty() || self.is(Slip::EmptyArrayTruthy),
            Item::Read(object) => object.count() > 1 || self.is(Slip::EmptyObjectTruthy),
            Item::List(items) => !items.is_empty() || self.is(Slip::EmptyArrayTruthy),
            Item::Context(_) => true,
        })
    }

    fn branch(&mut self, operands: &'a [Value], context: &Item<'a>) -> Result<'a> {
        let guard = self.operand(operands, 0, context)?;
        let takes = match self.truth(&guard) {
            Some(truth) => truth,
            None if self.is(Slip::IfRefusesInstant) => return Err(7),
            None => self.is(Slip::IfTakesInstant),
        };
        if self.is(Slip::IfEvaluatesBoth) {
            let both = [self.operand(operands, 1, context)?, self.operand(operands, 2, context)?];
            return Ok(both[usize::from(!takes)].clone());
        }
        self.operand(operands, if takes { 1 } else { 2 }, context)
    }

    fn and(&mut self, operands: &'a [Value], context: &Item<'a>) -> Result<'a> {
        let mut first_falsy = None;
        let mut last = Item::Null;
        for (at, operand) in operands.iter().enumerate() {
            last = self.rule(operand, context)?;
            let is_last = at + 1 == operands.len();
            match self.truth(&last) {
                None if self.is(Slip::AndInstantTruthy) || is_last && self.is(Slip::AndLastUntested) => {}
                None => return Err(7),
                Some(true) => {}
                Some(false) => {
                    first_falsy = first_falsy.or_else(|| Some(last.clone()));
                    if !self.is(Slip::AndEvaluatesAll) {
                        break;
                    }
                }
            }
        }
        Ok(match first_falsy {
            Some(_) if self.is(Slip::AndGivesFalse) => Item::Boolean(false),
            Some(falsy) => falsy,
            None if self.is(Slip::AndGivesBoolean) => Item::Boolean(true),
            None => last,
        })
    }

    // ---- var

    fn var(&self, path: Option<&'a Value>, context: &Item<'a>) -> Item<'a> {
        let path = match path {
            Some(Value::String(path)) => path,
            _ => return Item::Null,
        };
        let found = self.look_up(path, context);
        match (&found, &self.record) {
            (Item::Null, record) if self.is(Slip::OuterSeen) => self.look_up(path, record),
            _ => found,
        }
    }

    fn look_up(&self, path: &[u8], context: &Item<'a>) -> Item<'a> {
        if path.is_empty() {
            return if self.is(Slip::EmptyPathIsNull) { Item::Null } else { context.clone() };
        }
        let mut item = context.clone();
        for fragment in path.split(|&byte| byte == b'.') {
            item = self.part(&item, fragment);
            if self.is(Slip::FirstFragmentOnly) {
                break;
            }
        }
        item
    }

    fn part(&self, item: &Item<'a>, fragment: &[u8]) -> Item<'a> {
        let is_name = |name: &[u8]| match self.wrong.slip {
            Slip::NamesByPrefix => name.starts_with(fragment),
            _ => name == fragment,
        };
        let numbered = |mut parts: Vec<Item<'a>>| match self.index(fragment) {
            _ if self.is(Slip::LengthOfArrays) && fragment == b"length" => Item::Integer(parts.len() as i128),
            Some(index) if index < parts.len() as u128 => parts.swap_remove(index as usize),
            Some(_) if self.is(Slip::PastEndIsLast) => parts.pop().unwrap_or(Item::Null),
            _ => Item::Null,
        };
        match item {
            Item::Read(Value::Object(members)) => match members.iter().find(|(name, _)| is_name(name)) {
                Some((_, content)) => Item::of(content),
                None if self.is(Slip::DigitsOnObjects) => {
                    numbered(members.iter().map(|(_, content)| Item::of(content)).collect())
                }
                None => Item::Null,
            },
            Item::Context(parts) => {
                let swapped = usize::from(self.is(Slip::ContextSwapped));
                if is_name(b"current") {
                    parts[swapped].clone()
                } else if is_name(b"accumulator") {
                    parts[1 - swapped].clone()
                } else {
                    Item::Null
                }
            }
            scalar if self.is(Slip::ScalarPassed) && scalar.is_scalar() => scalar.clone(),
            _ => item.items().map_or(Item::Null, numbered),
        }
    }

    fn index(&self, fragment: &[u8]) -> Option<u128> {
        let digits = match fragment {
            [b'+', digits @ ..] if self.is(Slip::SignedIndex) => digits,
            digits => digits,
        };
        let leads = digits.len() > 1 && digits[0] == b'0' && !self.is(Slip::LeadingZeros);
        if digits.is_empty() || leads || !digits.iter().all(u8::is_ascii_digit) {
            return None;
        }
        let index = std::str::from_utf8(digits).ok()?.parse().unwrap_or(u128::MAX);
        Some(match self.wrong.slip {
            Slip::IndexOf32Bits => index & 0xffff_ffff,
            Slip::IndexOf64Bits => index & 0xffff_ffff_ffff_ffff,
            _ => index,
        })
    }

    // ---- equality, sums, comparisons

    fn equality(&self, one: &Item, other: &Item) -> std::result::Result<bool, u32> {
        match (one, other) {
            (Item::Null, _) | (_, Item::Null) if self.is(Slip::EqualNullRefused) => Err(7),
            (Item::Instant(one), Item::Instant(other)) if self.is(Slip::EqualTakesInstants) => Ok(one == other),
            _ if one.is_scalar() && other.is_scalar() => {
                let same_kind = std::mem::discriminant(one) == std::mem::discriminant(other);
                match same_kind || !self.is(Slip::EqualKindsRefused) {
                    true => Ok(self.equal(one, other)),
                    false => Err(7),
                }
            }
            _ if self.is(Slip::EqualTakesArrays) && one.items().is_some() && other.items().is_some() => Ok(false),
            _ => Err(7),
        }
    }

    fn equal(&self, one: &Item, other: &Item) -> bool {
        match (one, other) {
            (Item::Null, Item::Null) => true,
            (Item::Boolean(one), Item::Boolean(other)) => one == other,
            (Item::Integer(one), Item::Integer(other)) => one == other,
            (Item::String(one), Item::String(other)) if self.is(Slip::EqualByLength) => one.len() == other.len(),
            (Item::String(one), Item::String(other)) => one == other,
            (Item::Integer(integer), Item::String(text)) | (Item::String(text), Item::Integer(integer)) => {
                self.is(Slip::EqualCoerces) && integer.to_string().as_bytes() == *text
            }
            _ => false,
        }
    }

    fn membership(&self, one: &Item, list: &Item) -> std::result::Result<bool, u32> {
        let mut items = match list {
            Item::Null if self.is(Slip::InTakesNull) => Vec::new(),
            Item::String(text) if self.is(Slip::InTakesString) => match one {
                Item::String(part) if !part.is_empty() => {
                    return Ok(text.windows(part.len()).any(|some| some == *part))
                }
                _ => return Ok(false),
            },
            list => list.items().ok_or(7_u32)?,
        };
        if self.is(Slip::InMissesLast) {
            items.pop();
        }
        match one {
            Item::Instant(ms) if self.is(Slip::InFindsInstants) => {
                Ok(items.iter().any(|item| matches!(item, Item::Instant(other) if other == ms)))
            }
            one if one.is_scalar() => Ok(items.iter().any(|item| self.equal(one, item))),
            one if self.is(Slip::InFindsArrays) && one.items().map_or(false, |items| items.is_empty()) => {
                Ok(items.iter().any(|item| item.items().map_or(false, |items| items.is_empty())))
            }
            one if self.is(Slip::InTakesArray) && one.items().is_some() => Ok(false),
            _ => Err(7),
        }
    }

    fn sum(&self, one: Item<'a>, other: Item<'a>) -> Result<'a> {
        let number = |item| match item {
            Item::Integer(integer) => Ok(integer),
            Item::Null if self.is(Slip::PlusNullIsZero) => Ok(0),
            _ => Err(7_u32),
        };
        let sum = number(one)? + number(other)?;
        let least = if self.is(Slip::PlusUnboundedBelow) { i128::MIN } else { -MAX_INTEGER };
        let most = if self.is(Slip::PlusOneLess) { MAX_INTEGER - 1 } else { MAX_INTEGER };
        match (least..=most).contains(&sum) || self.is(Slip::PlusUnbounded) {
            true => Ok(Item::Integer(sum)),
            false => Err(9),
        }
    }

    fn comparison(&mut self, name: &str, operands: &'a [Value], context: &Item<'a>) -> Result<'a> {
        let of_dates = name.as_bytes()[0].is_ascii_lowercase();
        let mut values = self.all(&operands[..operands.len().min(2)], context)?;
        if self.is(Slip::ThirdUnevaluated) || self.is(Slip::ThirdUntested) {
            let numbers = self.numbers(&values, of_dates)?;
            let fails = numbers.len() == 2 && !self.holds(name, numbers[0], numbers[1]);
            if fails && self.is(Slip::ThirdUnevaluated) {
                return Ok(Item::Boolean(false));
            }
            if fails {
                self.all(&operands[2..], context)?;
                return Ok(Item::Boolean(false));
            }
        }
        values.extend(self.all(operands.get(2..).unwrap_or(&[]), context)?);
        let numbers = self.numbers(&values, of_dates)?;
        let pairs: Vec<bool> = (1..numbers.len())
            .map(|at| {
                let before = if self.is(Slip::FirstAndThird) { 0 } else { at - 1 };
                self.holds(name, numbers[before], numbers[at])
            })
            .collect();
        Ok(Item::Boolean(match self.wrong.slip {
            Slip::ThirdIgnored => pairs.first() == Some(&true),
            Slip::EitherPair => pairs.contains(&true),
            _ => !pairs.contains(&false),
        }))
    }

    fn numbers(&self, values: &[Item<'a>], of_dates: bool) -> std::result::Result<Vec<i128>, u32> {
        let number = |value: &Item| match value {
            Item::Integer(integer) if !of_dates || self.is(Slip::WordsTakeIntegers) => Ok(*integer),
            Item::Instant(ms) if of_dates || self.is(Slip::SignsTakeInstants) => Ok((*ms).into()),
            Item::String(text) if of_dates && self.is(Slip::WordsTakeStrings) => {
                dates::read_date(text).map(i128::from).map_err(|_| 7)
            }
            _ => Err(7),
        };
        values.iter().map(number).collect()
    }

    fn holds(&self, name: &str, one: i128, other: i128) -> bool {
        match (name, self.wrong.slip) {
            (">", Slip::GreaterOrEqual) => one >= other,
            ("<", Slip::LessOrEqual) => one <= other,
            (">=", Slip::Greater) => one > other,
            ("<=", Slip::Less) => one < other,
            ("after", Slip::AfterIsBefore) => one < other,
            ("not-after", Slip::NotAfterIsBefore) => one < other,
            ("not-after", Slip::NotAfterIsNotBefore) => one >= other,
            ("not-before", Slip::NotBeforeIsAfter) => one > other,
            (">" | "after", _) => one > other,
            ("<" | "before", _) => one < other,
            (">=" | "not-before", _) => one >= other,
            _ => one <= other,
        }
    }

    // ---- reduce

    fn reduce(&mut self, operands: &'a [Value], context: &Item<'a>) -> Result<'a> {
        let [operand, initial] = if self.is(Slip::InitialFirst) {
            let initial = self.operand(operands, 2, context)?;
            [self.operand(operands, 0, context)?, initial]
        } else {
            let operand = self.operand(operands, 0, context)?;
            if self.is(Slip::OperandTestedFirst) && operand.items().is_none() {
                return Err(7);
            }
            [operand, self.operand(operands, 2, context)?]
        };
        let mut items = match operand {
            Item::Null if self.is(Slip::NullFoldsNothing) => Vec::new(),
            operand => operand.items().ok_or(7_u32)?,
        };
        match self.wrong.slip {
            Slip::EmptyFoldsNull if items.is_empty() => return Ok(Item::Null),
            Slip::FoldsBackwards => items.reverse(),
            Slip::FoldsOnce => items.truncate(1),
            _ => {}
        }
        let mut accumulator = initial.clone();
        for item in items {
            if self.is(Slip::LambdaCounted) {
                self.step()?;
            }
            let before = if self.is(Slip::InitialInLambda) { initial.clone() } else { accumulator };
            let context = Item::Context(Rc::new([item, before]));
            accumulator = self.operand(operands, 1, &context)?;
        }
        Ok(accumulator)
    }

    // ---- extractFromUVCI

    fn fragment(&self, operand: Item<'a>, index: i64) -> Result<'a> {
        let text = match operand {
            Item::Null if self.is(Slip::UvciNullRefused) => return Err(7),
            Item::Null => return Ok(Item::Null),
            Item::String(text) => text,
            _ if self.is(Slip::UvciTakesAny) => return Ok(Item::Null),
            _ => return Err(7),
        };
        let separators: &[u8] = match self.wrong.slip {
            Slip::NoHash => b"/:",
            Slip::NoSlash => b"#:",
            _ => b"/#:",
        };
        let mut fragments: Vec<&[u8]> = text.split(|byte| separators.contains(byte)).collect();
        if self.is(Slip::EmptyHasNone) && text.is_empty() {
            fragments.clear();
        }
        while self.has_prefix(text, &fragments) {
            fragments.drain(..2);
            if !self.is(Slip::PrefixTwice) {
                break;
            }
        }
        if self.is(Slip::UrnAloneDropped) && fragments.first() == Some(&&b"URN"[..]) {
            fragments.remove(0);
        }
        let index = match self.wrong.slip {
            Slip::NegativeFromEnd if index < 0 => index + fragments.len() as i64,
            Slip::FragmentOf32Bits => index & 0xffff_ffff,
            _ => index,
        };
        let found = usize::try_from(index).ok().and_then(|index| fragments.get(index));
        Ok(found.map_or(Item::Null, |fragment| Item::String(fragment)))
    }

    fn has_prefix(&self, text: &[u8], fragments: &[&[u8]]) -> bool {
        match (self.wrong.slip, fragments) {
            (Slip::PrefixKept, _) => false,
            (Slip::PrefixNeedsMore, [_, _]) => false,
            (Slip::PrefixByColons, _) => text.starts_with(b"URN:UVCI:") || text == b"URN:UVCI",
            (Slip::PrefixInAnyCase, [first, second, ..]) => {
                first.eq_ignore_ascii_case(b"URN") && second.eq_ignore_ascii_case(b"UVCI")
            }
            (_, [first, second, ..]) => *first == b"URN" && *second == b"UVCI",
            _ => false,
        }
    }

    // ---- dates

    fn refuse(&self, refusal: Refusal) -> u32 {
        match refusal {
            Refusal::OutOfRange if self.is(Slip::RangeIsEight) => 8,
            Refusal::NoDate if self.is(Slip::NoDateIsSeven) => 7,
            refusal => refusal.number(),
        }
    }

    fn date(&self, read: fn(&[u8]) -> std::result::Result<i64, Refusal>, text: &[u8]) -> std::result::Result<i64, u32> {
        let mut text = text.to_vec();
        let time = text.iter().position(|&byte| byte == b'T').unwrap_or(text.len());
        match self.wrong.slip {
            Slip::LowerCase => text.make_ascii_uppercase(),
            Slip::YearBegins if text.len() == 4 => text.extend(b"-01-01"),
            Slip::MonthBegins if text.len() == 7 => text.extend(b"-01"),
            Slip::OffsetUnread => {
                let end = text[time..].iter().position(|byte| b"+-".contains(byte)).map_or(text.len(), |at| time + at);
                text.truncate(end);
            }
            Slip::OffsetReversed => {
                for byte in &mut text[time..] {
                    *byte = match *byte {
                        b'+' => b'-',
                        b'-' => b'+',
                        other => other,
                    };
                }
            }
            _ => {}
        }
        let ms = read(&text).map_err(|refusal| self.refuse(refusal))?;
        Ok(if self.is(Slip::FractionDropped) { ms - ms.rem_euclid(1_000) } else { ms })
    }

    fn plus_time(&self, operand: Item<'a>, amount: i64, unit: &Value) -> Result<'a> {
        let from = match operand {
            Item::String(text) => self.date(dates::read_date, text)?,
            Item::Instant(ms) if self.is(Slip::ShiftsInstants) => ms,
            Item::Null if self.is(Slip::DateOfNull) => return Ok(Item::Null),
            _ => return Err(7),
        };
        let unit = match unit {
            Value::String(word) if word == b"year" => Unit::Year,
            Value::String(word) if word == b"month" => Unit::Month,
            Value::String(word) if word == b"hour" => Unit::Hour,
            _ => Unit::Day,
        };
        let amount = if self.is(Slip::AmountUnsigned) { amount.abs() } else { amount };
        let shifted = match dates::shift(from, amount, unit) {
            Ok(ms) => ms,
            Err(_) if self.is(Slip::ShiftClamped) => {
                return Ok(Item::Instant(if amount < 0 { EARLIEST } else { LATEST }))
            }
            Err(refusal) => return Err(self.refuse(refusal)),
        };
        let clamps = match unit {
            Unit::Month => self.is(Slip::MonthClamped),
            Unit::Year => self.is(Slip::YearClamped),
            _ => false,
        };
        let day = |ms: i64| dates::date_of(ms.div_euclid(MS_PER_DAY).into()).2 as i64;
        let past = if clamps && day(shifted) != day(from) { day(shifted) } else { 0 };
        Ok(Item::Instant(shifted - past * MS_PER_DAY))
    }
}
