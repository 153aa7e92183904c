//! A viewer of another make than the independent one, with one slip in it or none: what the tables are to notice. It
//! looks at a row when it is asked for it, and goes from part to part.

use crate::view::{Entry, Viewer, DONE, REFUSED};
use harness::slips;

slips! {
    None: "no slip",
    // programs that would do nothing for us
    RefusesAll: "1 to everything",
    AllNull: "null at every place",
    // which rows there are
    HalfRow: "a row that is not whole counts",
    RowsOneLess: "the last row is not there",
    RowsUnlimited: "rows from 1,024 on are there",
    RowsLimitedLess: "row 1,023 is not there",
    RowsOf24: "a row for each 24 bytes of the table",
    PlaceOf32Bits: "a place has 32 bits",
    PlaceOf60Bits: "a place has 60 bits",
    // kinds
    KindZero: "kind 0 is null",
    KindEight: "kind 8 is an object",
    KindOf7Bits: "a kind has 7 bits",
    KindOf3Bits: "a kind has 3 bits",
    // names
    NameUnchecked: "a name may lie anywhere",
    NameOneMore: "a name may end one byte past the strings area",
    NameOneLess: "a name that ends with the strings area has not the form",
    NameStartAlone: "the start of a name alone is looked at",
    NameLengthAlone: "the length of a name alone is looked at",
    NameWraps: "the end of a name has 32 bits",
    EmptyNameAnywhere: "an empty name may begin anywhere",
    RootNameUnchecked: "the name of the root is not looked at",
    NameLengthOfByte: "the length of a name has one byte",
    NameLengthOf16Bits: "the length of a name has 16 bits",
    NameSwapped: "the start of a name as its length",
    UnnamedRefused: "no name gives 1",
    NamesOfScalars: "a container has no name",
    // null, false, true
    WordFirstUnchecked: "the first number of null, false and true is not looked at",
    WordSecondUnchecked: "nor is the second",
    WordWraps: "their sum in 32 bits is looked at",
    TrueUnchecked: "the numbers of true are not looked at",
    FalseUnchecked: "the numbers of false are not looked at",
    // integers
    IntegerZeroTold: "the number 0 is an integer",
    IntegerLeastRefused: "the number 1 is none",
    IntegerOneMore: "2^54 is an integer",
    IntegerOneLess: "2^54 - 1 is none",
    IntegerUnchecked: "every number is an integer",
    IntegerLowHalf: "the high half of an integer is lost",
    IntegerBiasOneLess: "integers one more",
    IntegerAbsolute: "no sign",
    IntegerOfAny: "every row tells an integer",
    // strings
    StringUnchecked: "a string may lie anywhere",
    StringOneMore: "a string may end one byte past the strings area",
    StringOneLess: "a string that ends with the strings area has not the form",
    StringWraps: "the end of a string has 32 bits",
    EmptyStringAnywhere: "an empty string may begin anywhere",
    StringSwapped: "the start of a string as its length",
    StringOfAny: "every row tells a string",
    StringIsName: "the name of a string in its place",
    // arrays and objects
    EndAtRow: "a container may end at its own row",
    EndUnchecked: "a container may end past the rows",
    EndOneMore: "a container may end one row past the rows",
    EndOneLess: "a container that ends with the rows has not the form",
    EndBy1024: "the end of a container is held to 1,024 alone",
    CountZeroTold: "a count of 0 with rows between has the form",
    EmptyWithCount: "an empty container may have any count",
    CountOneMore: "a count of one more than the rows between has the form",
    CountOneLess: "a count of the rows between has not the form",
    CountUnchecked: "every count has the form",
    ArrayUnchecked: "the count of an array is not looked at",
    CountOfScalars: "the first number of a scalar as its count",
    CountOfRows: "the rows between as the count",
    CountOf8Bits: "a count has 8 bits",
    // parts
    NumberUnchecked: "parts from the count on are told too",
    NumberOneMore: "the part with the number of the count is told",
    NumberOneLess: "the last part is not told",
    NumberFromOne: "parts are numbered from 1",
    NumberOf32Bits: "the number of a part has 32 bits",
    ContainerUnchecked: "a container without the form has parts",
    SiblingUnchecked: "the parts before may have any form",
    PartUnchecked: "the part may have any form",
    PartsUnbounded: "parts may end past their container",
    PartStrict: "a part may not end with its container",
    NextRow: "the next part is in the next row",
    ScalarsHaveParts: "the next row is a part of a scalar",
    PartFromContainer: "the place of a part counted from its container",
    PartPassed: "the row after the part in its place",
    PartsOfObjects: "an array has no parts",
    // numbers and answers
    ViewClears: "jehvrukam_view clears its numbers with 1",
    KindWritten: "the kind is written before the form is looked at",
    PartClears: "jehvrukam_view_part clears its number with 1",
    PartWritten: "jehvrukam_view_part writes where it stopped with 1",
    IntegerClears: "jehvrukam_view_integer clears its number with 1",
    StringClears: "jehvrukam_view_string clears its numbers with 1",
    NameClears: "jehvrukam_view_name clears its numbers with 1",
    CountLeft: "a count of 0 is not written",
    LengthLeft: "a length of 0 is not written",
    PartTwice: "jehvrukam_view_part writes behind its number",
    RefusesWithTwo: "2 in place of 1",
}

const AREA: u64 = 16_384;
const BIAS: u64 = 1 << 53;

/// The numbers of a row.
#[derive(Clone, Copy)]
struct Row {
    kind: u64,
    name: [u64; 2],
    first: u64,
    second: u64,
}

impl Row {
    fn is_container(&self) -> bool {
        self.kind >= 6
    }

    fn end(&self, place: u64) -> u64 {
        if self.is_container() {
            self.second
        } else {
            place + 1
        }
    }
}

impl Viewer for Wrong {
    fn ask(&mut self, entry: Entry, table: &[u8], place: u64, nth: u64, [first, second]: [&mut u64; 2]) -> u32 {
        let told = match entry {
            Entry::View => self.view(table, place),
            Entry::Part => self.part(table, place, nth).map(|part| [part, 0]),
            Entry::Integer => self.integer(table, place).map(|integer| [integer, 0]),
            Entry::String => self.string(table, place),
            Entry::Name => self.name(table, place),
        };
        let told = if self.is(Slip::RefusesAll) { None } else { told };
        match (told, entry) {
            (Some([told, _]), Entry::Part | Entry::Integer) => {
                *first = told;
                if self.is(Slip::PartTwice) && entry == Entry::Part {
                    *second = told;
                }
                DONE
            }
            (Some(told), _) => {
                *first = told[0];
                let is_left = if entry == Entry::View { self.is(Slip::CountLeft) } else { self.is(Slip::LengthLeft) };
                if told[1] > 0 || !is_left {
                    *second = told[1];
                }
                DONE
            }
            (None, _) => self.refuse(entry, table, place, first, second),
        }
    }
}

impl Wrong {
    // ---- rows

    fn rows(&self, table: &[u8]) -> u64 {
        let length = table.len() as u64;
        let rows = match self.slip {
            Slip::HalfRow => (length + 15) / 16,
            Slip::RowsOf24 => length / 24,
            Slip::RowsOneLess => (length / 16).saturating_sub(1),
            _ => length / 16,
        };
        match self.slip {
            Slip::RowsUnlimited => rows,
            Slip::RowsLimitedLess => rows.min(1_023),
            _ => rows.min(1_024),
        }
    }

    /// The numbers of the row at a place, whatever they are.
    fn numbers(&self, table: &[u8], place: u64) -> Option<Row> {
        let place = match self.slip {
            Slip::PlaceOf32Bits => place & 0xffff_ffff,
            Slip::PlaceOf60Bits => place & ((1 << 60) - 1),
            _ => place,
        };
        if place >= self.rows(table) {
            return None;
        }
        let byte = |at: usize| u64::from(table.get(16 * place as usize + at).copied().unwrap_or(0));
        let word = |at: usize| byte(at) | byte(at + 1) << 8 | byte(at + 2) << 16 | byte(at + 3) << 24;
        let kind = match (self.slip, byte(0)) {
            (Slip::KindZero, 0) => 1,
            (Slip::KindEight, 8) => 7,
            (Slip::KindOf7Bits, kind) => kind & 127,
            (Slip::KindOf3Bits, kind) => kind & 7,
            (_, kind) => kind,
        };
        let length = match self.slip {
            Slip::NameLengthOfByte => byte(1),
            Slip::NameLengthOf16Bits => word(0) >> 8 & 0xffff,
            _ => word(0) >> 8,
        };
        Some(Row { kind, name: [word(4), length], first: word(8), second: word(12) })
    }

    /// The row at a place, if it has the form.
    fn row(&self, table: &[u8], place: u64) -> Option<Row> {
        if self.is(Slip::AllNull) {
            return Some(Row { kind: 1, name: [0, 0], first: 0, second: 0 });
        }
        let row = self.numbers(table, place)?;
        let is_named = self.is_name(row.name) || self.is(Slip::RootNameUnchecked) && place == 0;
        Some(row).filter(|_| is_named && self.has_content(row, place, self.rows(table)))
    }

    fn is_name(&self, [start, length]: [u64; 2]) -> bool {
        match self.slip {
            Slip::NameUnchecked => true,
            Slip::NameOneMore => start + length <= AREA + 1,
            Slip::NameOneLess => start + length < AREA || length == 0 && start == 0,
            Slip::NameStartAlone => start <= AREA,
            Slip::NameLengthAlone => length <= AREA,
            Slip::NameWraps => (start + length) & 0xffff_ffff <= AREA,
            Slip::EmptyNameAnywhere => length == 0 || start + length <= AREA,
            _ => start + length <= AREA,
        }
    }

    fn has_content(&self, row: Row, place: u64, rows: u64) -> bool {
        match row.kind {
            1..=3 => self.is_word(row),
            4 => self.is_integer(row.first | row.second << 32),
            5 => self.is_string(row.first, row.second),
            6 | 7 => self.has_end(row, place, rows) && self.has_count(row, place),
            _ => false,
        }
    }

    fn is_word(&self, row: Row) -> bool {
        match (self.slip, row.kind) {
            (Slip::WordFirstUnchecked, _) => row.second == 0,
            (Slip::WordSecondUnchecked, _) => row.first == 0,
            (Slip::WordWraps, _) => (row.first + row.second) & 0xffff_ffff == 0,
            (Slip::TrueUnchecked, 3) | (Slip::FalseUnchecked, 2) => true,
            _ => row.first == 0 && row.second == 0,
        }
    }

    fn is_integer(&self, number: u64) -> bool {
        let (least, end) = match self.slip {
            Slip::IntegerUnchecked => return true,
            Slip::IntegerZeroTold => (0, 2 * BIAS),
            Slip::IntegerLeastRefused => (2, 2 * BIAS),
            Slip::IntegerOneMore => (1, 2 * BIAS + 1),
            Slip::IntegerOneLess => (1, 2 * BIAS - 1),
            _ => (1, 2 * BIAS),
        };
        (least..end).contains(&number)
    }

    fn is_string(&self, start: u64, length: u64) -> bool {
        match self.slip {
            Slip::StringUnchecked => true,
            Slip::StringOneMore => start + length <= AREA + 1,
            Slip::StringOneLess => start + length < AREA,
            Slip::StringWraps => (start + length) & 0xffff_ffff <= AREA,
            Slip::EmptyStringAnywhere => length == 0 || start + length <= AREA,
            _ => start + length <= AREA,
        }
    }

    fn has_end(&self, row: Row, place: u64, rows: u64) -> bool {
        let end = row.second;
        match self.slip {
            Slip::EndAtRow => end >= place && end <= rows,
            Slip::EndUnchecked => end > place,
            Slip::EndOneMore => end > place && end <= rows + 1,
            Slip::EndOneLess => end > place && end < rows,
            Slip::EndBy1024 => end > place && end <= 1_024,
            _ => end > place && end <= rows,
        }
    }

    fn has_count(&self, row: Row, place: u64) -> bool {
        let (count, between) = (row.first, row.second.saturating_sub(place + 1));
        match (self.slip, count) {
            (Slip::CountUnchecked, _) | (Slip::CountZeroTold, 0) => true,
            (Slip::ArrayUnchecked, _) if row.kind == 6 => true,
            (Slip::EmptyWithCount, _) if between == 0 => true,
            (_, 0) => between == 0,
            (Slip::CountOneMore, _) => count <= between + 1,
            (Slip::CountOneLess, _) => count < between,
            _ => count <= between,
        }
    }

    // ---- what is told

    fn view(&self, table: &[u8], place: u64) -> Option<[u64; 2]> {
        let row = self.row(table, place)?;
        let count = match self.slip {
            Slip::CountOfScalars => row.first,
            _ if !row.is_container() => 0,
            Slip::CountOfRows => row.second.saturating_sub(place + 1),
            Slip::CountOf8Bits => row.first & 255,
            _ => row.first,
        };
        Some([row.kind, count])
    }

    fn integer(&self, table: &[u8], place: u64) -> Option<u64> {
        let row = self.row(table, place).filter(|row| row.kind == 4 || self.is(Slip::IntegerOfAny))?;
        let number = row.first | row.second << 32;
        Some(match self.slip {
            Slip::IntegerLowHalf => row.first.wrapping_sub(BIAS),
            Slip::IntegerBiasOneLess => number.wrapping_sub(BIAS - 1),
            Slip::IntegerAbsolute => (number as i64).wrapping_sub(BIAS as i64).unsigned_abs(),
            _ => number.wrapping_sub(BIAS),
        })
    }

    fn string(&self, table: &[u8], place: u64) -> Option<[u64; 2]> {
        let row = self.row(table, place).filter(|row| row.kind == 5 || self.is(Slip::StringOfAny))?;
        Some(match self.slip {
            Slip::StringSwapped => [row.second, row.first],
            Slip::StringIsName => row.name,
            _ => [row.first, row.second],
        })
    }

    fn name(&self, table: &[u8], place: u64) -> Option<[u64; 2]> {
        let row = self.row(table, place)?;
        match self.slip {
            Slip::NameSwapped => Some([row.name[1], row.name[0]]),
            Slip::UnnamedRefused => Some(row.name).filter(|name| *name != [0, 0]),
            Slip::NamesOfScalars if row.is_container() => Some([0, 0]),
            _ => Some(row.name),
        }
    }

    /// How many parts of a row may be told.
    fn told_parts(&self, row: Row) -> u64 {
        match self.slip {
            Slip::ScalarsHaveParts if !row.is_container() => 1,
            Slip::PartsOfObjects if row.kind == 6 => 0,
            _ if !row.is_container() => 0,
            Slip::NumberUnchecked => u64::MAX,
            Slip::NumberOneMore => row.first + 1,
            Slip::NumberOneLess => row.first.saturating_sub(1),
            Slip::NumberFromOne => row.first + 1,
            _ => row.first,
        }
    }

    fn part(&self, table: &[u8], place: u64, nth: u64) -> Option<u64> {
        let container = match self.slip {
            Slip::ContainerUnchecked => self.numbers(table, place),
            _ => self.row(table, place),
        }?;
        let nth = match self.slip {
            Slip::NumberOf32Bits => nth & 0xffff_ffff,
            _ => nth,
        };
        if nth >= self.told_parts(container) {
            return None;
        }
        let passed = if self.is(Slip::NumberFromOne) { nth.checked_sub(1)? } else { nth };
        let part = self.nth_part(table, place, container, passed).ok()?;
        Some(match self.slip {
            Slip::PartFromContainer => part - place,
            Slip::PartPassed => part + 1,
            _ => part,
        })
    }

    /// The place of a part; or where the walk stopped.
    fn nth_part(&self, table: &[u8], place: u64, container: Row, nth: u64) -> Result<u64, u64> {
        let mut at = place + 1;
        for left in (0..=nth).rev() {
            let row = match self.slip {
                Slip::SiblingUnchecked if left > 0 => self.numbers(table, at),
                Slip::PartUnchecked if left == 0 => self.numbers(table, at),
                _ => self.row(table, at),
            };
            let row = row.ok_or(at)?;
            let (end, last) = (row.end(at), container.end(place));
            let is_within = match self.slip {
                Slip::PartsUnbounded | Slip::ScalarsHaveParts => true,
                Slip::PartStrict => end < last,
                _ => end <= last,
            };
            if !is_within || left > 0 && end <= at {
                return Err(at);
            }
            if left > 0 {
                at = if self.is(Slip::NextRow) { at + 1 } else { end };
            }
        }
        Ok(at)
    }

    /// Answers that nothing is told; some slips write a number all the same.
    fn refuse(&self, entry: Entry, table: &[u8], place: u64, first: &mut u64, second: &mut u64) -> u32 {
        let clears = match entry {
            Entry::View => self.is(Slip::ViewClears),
            Entry::Part => self.is(Slip::PartClears),
            Entry::Integer => self.is(Slip::IntegerClears),
            Entry::String => self.is(Slip::StringClears),
            Entry::Name => self.is(Slip::NameClears),
        };
        if clears {
            *first = 0;
            if !matches!(entry, Entry::Part | Entry::Integer) {
                *second = 0;
            }
        }
        match (self.slip, entry, self.numbers(table, place)) {
            (Slip::KindWritten, Entry::View, Some(row)) => *first = row.kind,
            (Slip::PartWritten, Entry::Part, Some(_)) => *first = place.wrapping_add(1),
            _ => {}
        }
        if self.is(Slip::RefusesWithTwo) {
            2
        } else {
            REFUSED
        }
    }
}
