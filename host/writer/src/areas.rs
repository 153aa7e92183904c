//! The value that a cell stands for, whatever bytes the areas hold.
//!
//! A cell has eight bytes: a number `low` of 32 bits, a number `high` of 24 and a tag, lowest byte first. A row is as
//! docs/LAYOUT.md says. A cell or row that is not there is null, and the one after it is itself; a string or name is
//! clipped where its area ends; a tag or kind that is none is null.

use crate::dates::{EARLIEST, LATEST};
use crate::value::Value;

pub const CELL_BYTES: usize = 8;
pub const ROW_BYTES: usize = 16;
const BIAS: i128 = 1 << 53;

/// The areas that a cell refers to.
#[derive(Clone, Copy)]
pub struct Areas<'a> {
    pub rule: &'a [u8],
    pub strings: &'a [u8],
    pub table: &'a [u8],
    pub cells: &'a [u8],
}

/// What may still be unfolded. More than any answer has, so that what runs out of it is refused with 11, and the limits
/// themselves are left to `Value::written`.
struct Budget {
    values: usize,
    bytes: usize,
}

const NESTING: usize = 40;

/// So many bytes from a place on, as far as there are.
fn part(area: &[u8], start: u64, size: u64) -> &[u8] {
    let from = area.len().min(start as usize);
    let to = area.len().min((start + size) as usize);
    &area[from..to]
}

/// The bytes of a row or cell, if it is there.
fn entry(area: &[u8], number: u64, size: usize) -> Option<&[u8]> {
    let count = (area.len() / size) as u64;
    Some(number).filter(|&number| number < count).map(|number| &area[number as usize * size..][..size])
}

fn number(bytes: &[u8]) -> u64 {
    bytes.iter().rev().fold(0, |number, &byte| number << 8 | u64::from(byte))
}

fn integer(biased: u64) -> Value {
    Value::Integer(i128::from(biased) - BIAS)
}

/// By milliseconds since 0000-01-01.
fn instant(since: u64) -> Value {
    match i128::from(since) + i128::from(EARLIEST) {
        ms if ms <= i128::from(LATEST) => Value::Instant(ms as i64),
        _ => Value::Null,
    }
}

impl<'a> Areas<'a> {
    /// The value of a cell; None if it is far larger than any answer.
    pub fn unfold(&self, cell: u64) -> Option<Value> {
        self.cell(cell, NESTING, &mut Budget::new())
    }

    /// The same of a row.
    pub fn unfold_row(&self, row: u64) -> Option<Value> {
        self.row(row, NESTING, &mut Budget::new())
    }

    fn cell(&self, cell: u64, nesting: usize, budget: &mut Budget) -> Option<Value> {
        budget.take_value()?;
        let bytes = match entry(self.cells, cell, CELL_BYTES) {
            Some(bytes) => bytes,
            None => return Some(Value::Null),
        };
        let (low, high) = (number(&bytes[..4]), number(&bytes[4..7]));
        Some(match bytes[7] {
            1 => Value::Boolean(false),
            2 => Value::Boolean(true),
            3 => integer(low + (high << 32)),
            4 => instant(low + (high << 32)),
            5 => Value::String(budget.take(part(self.rule, low, high))?),
            6 => Value::String(budget.take(part(self.strings, low, high))?),
            7 => self.items(low, high, nesting, budget)?,
            8 => self.members(low, high, nesting, budget)?,
            9 => Value::Array(self.cells(low, high, nesting, budget)?),
            10 => {
                let parts = self.cells(low, high, nesting, budget)?;
                let last = parts.len().wrapping_sub(1);
                let name = |at| if at == last { &b"accumulator"[..] } else { b"current" };
                Value::Object(parts.into_iter().enumerate().map(|(at, part)| (name(at).to_vec(), part)).collect())
            }
            _ => Value::Null,
        })
    }

    fn cells(&self, first: u64, count: u64, nesting: usize, budget: &mut Budget) -> Option<Vec<Value>> {
        let deeper = nesting.checked_sub(1)?;
        (0..count).map(|at| self.cell(first + at, deeper, budget)).collect()
    }

    fn row(&self, row: u64, nesting: usize, budget: &mut Budget) -> Option<Value> {
        budget.take_value()?;
        let bytes = match entry(self.table, row, ROW_BYTES) {
            Some(bytes) => bytes,
            None => return Some(Value::Null),
        };
        let (third, fourth) = (number(&bytes[8..12]), number(&bytes[12..]));
        Some(match bytes[0] {
            2 => Value::Boolean(false),
            3 => Value::Boolean(true),
            4 => integer(number(&bytes[8..])),
            5 => Value::String(budget.take(part(self.strings, third, fourth))?),
            6 => self.items(row + 1, third, nesting, budget)?,
            7 => self.members(row + 1, third, nesting, budget)?,
            _ => Value::Null,
        })
    }

    fn items(&self, first: u64, count: u64, nesting: usize, budget: &mut Budget) -> Option<Value> {
        let deeper = nesting.checked_sub(1)?;
        let rows = self.rows(first).take(count as usize);
        rows.map(|row| self.row(row, deeper, budget)).collect::<Option<_>>().map(Value::Array)
    }

    fn members(&self, first: u64, count: u64, nesting: usize, budget: &mut Budget) -> Option<Value> {
        let deeper = nesting.checked_sub(1)?;
        let member = |row| Some((budget.take(self.name(row))?, self.row(row, deeper, budget)?));
        self.rows(first).take(count as usize).map(member).collect::<Option<_>>().map(Value::Object)
    }

    /// A row and its later siblings, without end.
    fn rows(&self, first: u64) -> impl Iterator<Item = u64> + 'a {
        let table = self.table;
        std::iter::successors(Some(first), move |&row| {
            Some(match entry(table, row, ROW_BYTES) {
                None => row,
                Some(bytes) if bytes[0] < 6 => row + 1,
                Some(bytes) => number(&bytes[12..]),
            })
        })
    }

    fn name(&self, row: u64) -> &'a [u8] {
        entry(self.table, row, ROW_BYTES)
            .map_or(&[], |bytes| part(self.strings, number(&bytes[4..8]), number(&bytes[1..4])))
    }
}

impl Budget {
    fn new() -> Budget {
        Budget { values: 2_000, bytes: 40_000 }
    }

    fn take_value(&mut self) -> Option<()> {
        self.values = self.values.checked_sub(1)?;
        Some(())
    }

    fn take(&mut self, bytes: &[u8]) -> Option<Vec<u8>> {
        self.bytes = self.bytes.checked_sub(bytes.len())?;
        Some(bytes.to_vec())
    }
}

#[cfg(test)]
mod tests {
    use super::*;
    use crate::value::TOO_LARGE;

    fn cell(tag: u64, low: u64, high: u64) -> [u8; 8] {
        (low + (high << 32) + (tag << 56)).to_le_bytes()
    }

    fn row(kind: u32, name: (u32, u32), third: u32, fourth: u32) -> Vec<u8> {
        [kind + 256 * name.1, name.0, third, fourth].iter().flat_map(|field| field.to_le_bytes()).collect()
    }

    fn text(cells: &[[u8; 8]], table: &[u8], at: u64) -> Option<String> {
        let areas = Areas { rule: b"rules", strings: b"strings", table, cells: &cells.concat() };
        areas.unfold(at).map(|value| String::from_utf8(value.text()).unwrap())
    }

    fn alone(tag: u64, low: u64, high: u64) -> String {
        text(&[cell(tag, low, high)], &[], 0).unwrap()
    }

    #[test]
    fn cells_of_scalars() {
        assert_eq!(text(&[], &[], 0).unwrap(), "null");
        assert_eq!(text(&[cell(1, 0, 0)], &[], 1).unwrap(), "null");
        assert_eq!(text(&[cell(1, 0, 0)], &[], 1 << 32).unwrap(), "null");
        assert_eq!(
            [alone(0, 5, 5), alone(1, 5, 5), alone(2, 5, 5), alone(11, 5, 5)],
            ["null", "false", "true", "null"]
        );
        assert_eq!(alone(3, 7, 1 << 21), "7");
        assert_eq!(alone(3, 0, 0), "-9007199254740992");
        assert_eq!(alone(3, u64::from(u32::MAX), (1 << 24) - 1), ((1_u64 << 56) - 1 - (1 << 53)).to_string());
        assert_eq!(alone(4, 0, 0), "\"0000-01-01T00:00:00.000Z\"");
        let latest = 315_569_519_999_999_u64;
        assert_eq!(alone(4, latest & 0xffff_ffff, latest >> 32), "\"9999-12-31T23:59:59.999Z\"");
        assert_eq!(alone(4, (latest + 1) & 0xffff_ffff, (latest + 1) >> 32), "null");
        assert_eq!([alone(5, 1, 3), alone(6, 1, 3)], ["\"ule\"", "\"tri\""]);
        assert_eq!([alone(5, 4, 9), alone(5, 5, 1), alone(6, 1 << 31, 1)], ["\"s\"", "\"\"", "\"\""]);
    }

    #[test]
    fn cells_of_parts() {
        let cells = [cell(1, 0, 0), cell(2, 0, 0), cell(9, 0, 2), cell(10, 1, 2), cell(10, 1, 0), cell(10, 1, 1)];
        assert_eq!(text(&cells, &[], 2).unwrap(), "[false,true]");
        assert_eq!(text(&cells, &[], 3).unwrap(), r#"{"current":true,"accumulator":[false,true]}"#);
        assert_eq!(text(&cells, &[], 4).unwrap(), "{}");
        assert_eq!(text(&cells, &[], 5).unwrap(), r#"{"accumulator":true}"#);
        assert_eq!(text(&[cell(10, 0, 3)], &[], 0), None); // a part of itself
        assert_eq!(
            text(&[cell(0, 0, 0), cell(10, 5, 3)], &[], 1).unwrap(),
            r#"{"current":null,"current":null,"accumulator":null}"#
        );
        assert_eq!(text(&[cell(0, 0, 0), cell(9, 0, 0)], &[], 1).unwrap(), "[]");
        assert_eq!(text(&[cell(9, 7, 1_000_000)], &[], 0), None);
    }

    #[test]
    fn rows() {
        let at = |table: &[Vec<u8>], tag, low, high| text(&[cell(tag, low, high)], &table.concat(), 0).unwrap();
        let table = [row(6, (0, 0), 2, 3), row(5, (0, 6), 1, 2), row(4, (6, 1), 1, 1 << 21)];
        assert_eq!(at(&table, 7, 1, 2), "[\"tr\",1]");
        assert_eq!(at(&table, 8, 1, 2), r#"{"string":"tr","s":1}"#);
        assert_eq!(at(&table, 7, 0, 1), "[[\"tr\",1]]");
        assert_eq!(at(&table, 7, 2, 3), "[1,null,null]");
        assert_eq!(at(&table, 8, 9, 2), r#"{"":null,"":null}"#);
        assert_eq!(at(&table, 7, 1, 0), "[]");
        // The row after one of kind 6 or more is the one that it names; a kind above 7 is null.
        assert_eq!(at(&[row(8, (0, 0), 0, 2), row(2, (0, 0), 0, 0), row(3, (0, 0), 0, 0)], 7, 0, 2), "[null,true]");
        assert_eq!(at(&[row(0, (0, 0), 0, 2), row(2, (0, 0), 0, 0), row(3, (0, 0), 0, 0)], 7, 0, 2), "[null,false]");
        assert_eq!(at(&[row(4, (0, 0), u32::MAX, u32::MAX)], 7, 0, 1), format!("[{}]", u64::MAX - (1 << 53)));
        assert_eq!(at(&[row(5, (6, 99), 5, u32::MAX)], 8, 0, 1), r#"{"s":"gs"}"#);
    }

    #[test]
    fn towers_end() {
        // Cell 0 is an empty list; each pair of cells above it refers twice to the list below.
        for levels in [1, 9, 10, 30, 300_u64] {
            let mut cells = vec![cell(9, 0, 0)];
            let mut top = cells[0];
            for level in 0..levels {
                cells.extend([top, top]);
                top = cell(9, 2 * level + 1, 2);
            }
            cells.push(top);
            let areas = Areas { rule: &[], strings: &[], table: &[], cells: &cells.concat() };
            let number = match areas.unfold(cells.len() as u64 - 1) {
                Some(value) => value.written(16_384).err().unwrap_or(0),
                None => TOO_LARGE,
            };
            assert_eq!(number, if levels < 10 { 0 } else { TOO_LARGE });
        }
    }
}
