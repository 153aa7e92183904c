//! Lays a value over the areas: some of its arrays and objects as rows of a record, which the independent reader reads
//! from a text, the others in cells; strings in either strings area.

use crate::areas::{Areas, CELL_BYTES, ROW_BYTES};
use crate::dates::EARLIEST;
use crate::random::Random;
use crate::value::Value;
use std::collections::HashMap;
use std::str;

/// The four areas, and the number of a cell.
#[derive(Clone, Debug, Default)]
pub struct Lent {
    pub rule: Vec<u8>,
    pub strings: Vec<u8>,
    pub table: Vec<u8>,
    pub cells: Vec<u8>,
    pub cell: u64,
}

impl Lent {
    pub fn areas(&self) -> Areas<'_> {
        Areas { rule: &self.rule, strings: &self.strings, table: &self.table, cells: &self.cells }
    }

    pub fn cell_count(&self) -> u64 {
        (self.cells.len() / CELL_BYTES) as u64
    }

    pub fn row_count(&self) -> u64 {
        (self.table.len() / ROW_BYTES) as u64
    }

    /// One cell more; gives its number.
    pub fn push(&mut self, cell: u64) -> u64 {
        self.cells.extend(cell.to_le_bytes());
        self.cell_count() - 1
    }

    /// One row more.
    pub fn push_row(&mut self, fields: [u32; 4]) {
        self.table.extend(fields.iter().flat_map(|field| field.to_le_bytes()));
    }
}

pub const FALSE: u64 = 1;
pub const TRUE: u64 = 2;
pub const INTEGER: u64 = 3;
pub const INSTANT: u64 = 4;
pub const RULE_STRING: u64 = 5;
pub const RECORD_STRING: u64 = 6;
pub const ITEMS: u64 = 7;
pub const MEMBERS: u64 = 8;
pub const LIST: u64 = 9;
pub const CONTEXT: u64 = 10;
pub const TAGS: usize = 11;

/// A cell with two numbers.
pub fn cell(tag: u64, low: u64, high: u64) -> u64 {
    low & 0xffff_ffff | (high & 0xff_ffff) << 32 | tag << 56
}

/// A cell with one number of 56 bits.
pub fn cell_of(tag: u64, number: u64) -> u64 {
    cell(tag, number, number >> 32)
}

/// The object that a lambda is evaluated over.
pub fn context(current: Value, accumulator: Value) -> Value {
    Value::Object(vec![(b"current".to_vec(), current), (b"accumulator".to_vec(), accumulator)])
}

fn is_context(value: &Value) -> bool {
    let named = |members: &[(Vec<u8>, Value)]| members[0].0 == b"current" && members[1].0 == b"accumulator";
    matches!(value, Value::Object(members) if members.len() == 2 && named(members))
}

/// A text can read as it, as far as its scalars and names tell.
pub fn is_readable(value: &Value) -> bool {
    match value {
        Value::Instant(_) => false,
        Value::Integer(integer) => integer.unsigned_abs() <= u128::from(reader::MAX_INTEGER),
        Value::String(bytes) => str::from_utf8(bytes).is_ok(),
        Value::Object(members) => {
            members.iter().all(|(name, content)| str::from_utf8(name).is_ok() && is_readable(content))
        }
        _ => value.parts().all(is_readable),
    }
}

/// The value that a text reads as, if it reads.
pub fn read(text: &[u8]) -> Option<Value> {
    let form = reader::judge(text).ok()?;
    let table = form.row_bytes();
    Areas { rule: &[], strings: &form.strings, table: &table, cells: &[] }.unfold_row(0)
}

/// Lays a value over areas. None if it does not go: what is to be read from a record is no text within the limits.
pub fn lay(random: &mut Random, value: &Value, read: usize) -> Option<Lent> {
    let shared = random.pick(&[0, 50, 100]);
    let mut layer = Layer { random, lent: Lent::default(), shared, found: HashMap::new(), strings: HashMap::new() };
    let mut chosen = Vec::new();
    layer.choose(value, read, &mut chosen);
    layer.put_record(&chosen)?;
    layer.put_noise();
    let first = layer.random.chance(50).then(|| layer.lent.push(0));
    let root = layer.put(value)?;
    layer.lent.cell = match first {
        Some(number) => {
            layer.lent.cells[number as usize * CELL_BYTES..][..CELL_BYTES].copy_from_slice(&root.to_le_bytes());
            number
        }
        None => layer.lent.push(root),
    };
    layer.pad();
    Some(layer.lent)
}

struct Layer<'a> {
    random: &'a mut Random,
    lent: Lent,
    /// Percent of arrays, objects and strings that are laid only once.
    shared: usize,
    /// What stands in the record or in cells, and its cell.
    found: HashMap<&'a Value, u64>,
    strings: HashMap<&'a [u8], u64>,
}

impl<'a> Layer<'a> {
    /// Chooses what is to be read from the record: so many percent of the arrays and objects that may be, and each
    /// object that lies nowhere else.
    fn choose(&mut self, value: &'a Value, read: usize, chosen: &mut Vec<&'a Value>) {
        let wanted = match value {
            Value::Array(_) => self.random.chance(read),
            Value::Object(_) => !is_context(value) || self.random.chance(read),
            _ => return,
        };
        if wanted && is_readable(value) {
            if !chosen.contains(&value) {
                chosen.push(value);
            }
        } else {
            value.parts().for_each(|part| self.choose(part, read, chosen));
        }
    }

    /// Makes a record of these values, reads it, and finds them in its rows.
    fn put_record(&mut self, chosen: &[&'a Value]) -> Option<()> {
        if chosen.is_empty() && self.random.chance(50) {
            return Some(());
        }
        let padded: Vec<(Value, u64)> = chosen.iter().map(|value| self.with_more_parts(value)).collect();
        let whole = padded.len() == 1 && self.random.chance(60);
        let names = self.random.chance(50);
        let contents = padded.iter().map(|(value, _)| value.clone());
        let record = match (whole, names) {
            (true, _) => padded[0].0.clone(),
            (_, false) => Value::Array(contents.collect()),
            _ => Value::Object(
                contents.enumerate().map(|(at, value)| (format!("k{}", at).into_bytes(), value)).collect(),
            ),
        };
        let form = reader::judge(&record.text()).ok()?;
        self.lent.table = form.row_bytes();
        self.lent.strings = form.strings;
        let mut row = if whole { 0 } else { 1 };
        for (&value, (padded, skipped)) in chosen.iter().zip(&padded) {
            let tag = if matches!(value, Value::Array(_)) { ITEMS } else { MEMBERS };
            self.found.insert(value, cell(tag, row + 1 + skipped, value.parts().count() as u64));
            row += padded.count() as u64;
        }
        Some(())
    }

    /// Sometimes with scalars before and behind its parts, which its cell then leaves out; and how many stand before.
    fn with_more_parts(&mut self, value: &Value) -> (Value, u64) {
        let mut padded = value.clone();
        if !self.random.chance(10) {
            return (padded, 0);
        }
        let before = self.random.below(4);
        match &mut padded {
            Value::Array(items) => {
                items.splice(0..0, vec![Value::Integer(7); before]);
                items.push(Value::Boolean(true));
            }
            Value::Object(members) => {
                let more = |at: usize| (format!("\u{1}before {}", at).into_bytes(), Value::Null);
                members.splice(0..0, (0..before).map(more));
                members.push((b"\x01behind".to_vec(), Value::Null));
            }
            _ => {}
        }
        (padded, before as u64)
    }

    /// Some bytes and cells that belong to nothing.
    fn put_noise(&mut self) {
        for _ in 0..self.random.below(4) {
            let (tag, low, high) = (self.random.below(TAGS), self.random.below(9), self.random.below(4));
            self.lent.push(cell(tag as u64, low as u64, high as u64));
        }
        for _ in 0..self.random.below(9) {
            self.lent.rule.push(self.random.byte());
        }
    }

    /// The cell of a value, with all that it refers to laid before.
    fn put(&mut self, value: &'a Value) -> Option<u64> {
        Some(match value {
            Value::Null => 0,
            Value::Boolean(false) => cell(FALSE, 0, 0),
            Value::Boolean(true) => cell(TRUE, 0, 0),
            Value::Integer(integer) => cell_of(INTEGER, (integer + (1 << 53)) as u64),
            Value::Instant(ms) => cell_of(INSTANT, (ms - EARLIEST) as u64),
            Value::String(bytes) => self.put_string(bytes),
            Value::Array(_) => self.put_parts(value, LIST)?,
            Value::Object(_) if is_context(value) => self.put_parts(value, CONTEXT)?,
            Value::Object(_) => self.found.get(value).copied()?,
        })
    }

    fn put_string(&mut self, bytes: &'a [u8]) -> u64 {
        if let Some(&found) = self.strings.get(bytes) {
            if self.random.chance(self.shared) {
                return found;
            }
        }
        let (tag, area) = match self.random.chance(50) {
            true => (RULE_STRING, &mut self.lent.rule),
            false => (RECORD_STRING, &mut self.lent.strings),
        };
        let put = cell(tag, area.len() as u64, bytes.len() as u64);
        area.extend(bytes);
        self.strings.insert(bytes, put);
        put
    }

    fn put_parts(&mut self, value: &'a Value, tag: u64) -> Option<u64> {
        if let Some(&found) = self.found.get(value) {
            if found >> 56 < LIST || self.random.chance(self.shared) {
                return Some(found);
            }
        }
        let cells = value.parts().map(|part| self.put(part)).collect::<Option<Vec<u64>>>()?;
        let first = self.lent.cell_count();
        for cell in &cells {
            self.lent.push(*cell);
        }
        let put = cell(tag, first, cells.len() as u64);
        self.found.insert(value, put);
        Some(put)
    }

    /// Areas as long as an evaluation has them, or no longer than needed, or with some bytes that make no row or cell.
    fn pad(&mut self) {
        let lent = &mut self.lent;
        if self.random.chance(10) {
            lent.table.resize(lent.table.len().max(reader::TABLE_BYTES), 0);
            lent.strings.resize(lent.strings.len().max(reader::STRINGS_BYTES), 0);
            lent.cells.resize(lent.cells.len().max(4_096 * CELL_BYTES), 0);
        }
        if self.random.chance(30) {
            for area in [&mut lent.table, &mut lent.cells] {
                for _ in 0..self.random.below(CELL_BYTES) {
                    area.push(self.random.byte());
                }
            }
        }
    }
}

#[cfg(test)]
mod tests {
    use super::*;
    use crate::generate;

    #[test]
    fn a_layout_stands_for_its_value() {
        let mut random = Random::new(1);
        let makers: [fn(&mut Random) -> Value; 7] = [
            generate::scalar,
            generate::ordinary,
            generate::record,
            generate::around_nesting,
            generate::around_values,
            generate::around_length,
            generate::around_items,
        ];
        for make in makers {
            let mut laid = 0;
            for _ in 0..200 {
                let value = make(&mut random);
                for read in [0, 50, 100] {
                    if let Some(lent) = lay(&mut random, &value, read) {
                        assert!(lent.areas().unfold(lent.cell).as_ref() == Some(&value), "{:?}", value);
                        laid += 1;
                    }
                }
            }
            assert!(laid > 300, "only {} laid", laid);
        }
    }
}
