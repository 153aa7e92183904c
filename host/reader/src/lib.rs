//! A strict JSON reader, written from document 01 alone, to compare the proved one with.
//!
//! It does not stop at the first fault. It goes over the text in separate passes, each simple enough to be held against
//! the paper by itself, collects every fault, and lets the smallest place win:
//!
//! - `machine`: RFC 8259's grammar as a state machine over bytes; gives tokens, and the place of refusal 2;
//! - `strings`: what names and strings stand for, by way of UTF-16 code units;
//! - `faults`: every fault of refusals 3, 4 and 5;
//! - `layout`: the bytes of both areas, for a text without a fault.
//!
//! `viewer` tells what a table holds, whatever bytes it has, from docs/LAYOUT.md. `cases` reads the cases of `vectors/`.

pub mod cases;
mod faults;
mod layout;
mod machine;
mod strings;
pub mod viewer;

pub use layout::Form;

pub const MAX_TEXT_BYTES: usize = 16_384;
pub const MAX_VALUES: usize = 1_024;
pub const MAX_NESTING: usize = 32;
pub const MAX_INTEGER: u64 = 9_007_199_254_740_991;
/// Bytes of work room for each value: its row, and 8 bytes that are zero again after a call.
pub const VALUE_BYTES: usize = 24;
pub const TABLE_BYTES: usize = MAX_VALUES * VALUE_BYTES;
pub const STRINGS_BYTES: usize = MAX_TEXT_BYTES;

/// What is wrong with a text.
#[derive(Clone, Copy, Debug, PartialEq, Eq, PartialOrd, Ord)]
pub enum Why {
    EndsEarly,
    IllFormedUtf8,
    RawControl,
    NoEscape,
    NoHexDigit,
    BrokenNumber,
    BrokenWord,
    WrongByte,
    MoreAfterValue,
    NameTwice,
    NameTwiceOtherwiseSpelled,
    LoneHigh,
    LoneLow,
    Fraction,
    Exponent,
    IntegerBeyond,
    TooLong,
    TooDeep,
    TooManyValues,
}

impl Why {
    pub const ALL: [Why; 19] = [
        Why::EndsEarly,
        Why::IllFormedUtf8,
        Why::RawControl,
        Why::NoEscape,
        Why::NoHexDigit,
        Why::BrokenNumber,
        Why::BrokenWord,
        Why::WrongByte,
        Why::MoreAfterValue,
        Why::NameTwice,
        Why::NameTwiceOtherwiseSpelled,
        Why::LoneHigh,
        Why::LoneLow,
        Why::Fraction,
        Why::Exponent,
        Why::IntegerBeyond,
        Why::TooLong,
        Why::TooDeep,
        Why::TooManyValues,
    ];

    /// The number in document 01's table.
    pub fn refusal(self) -> u32 {
        match self {
            Why::EndsEarly
            | Why::IllFormedUtf8
            | Why::RawControl
            | Why::NoEscape
            | Why::NoHexDigit
            | Why::BrokenNumber
            | Why::BrokenWord
            | Why::WrongByte
            | Why::MoreAfterValue => 2,
            Why::NameTwice | Why::NameTwiceOtherwiseSpelled | Why::LoneHigh | Why::LoneLow => 3,
            Why::Fraction | Why::Exponent | Why::IntegerBeyond => 4,
            Why::TooLong | Why::TooDeep | Why::TooManyValues => 5,
        }
    }
}

#[derive(Clone, Copy, Debug, PartialEq, Eq)]
pub struct Fault {
    pub why: Why,
    pub place: usize,
}

/// The read form of a text, or the fault with the smallest place.
pub fn judge(text: &[u8]) -> Result<Form, Fault> {
    if text.len() > MAX_TEXT_BYTES {
        return Err(Fault { why: Why::TooLong, place: MAX_TEXT_BYTES });
    }
    let (tokens, stop) = machine::scan(text);
    let contents = strings::of(text, &tokens);
    let mut found = faults::of(text, &tokens, &contents);
    found.extend(stop);
    match found.into_iter().min_by_key(|fault| fault.place) {
        Some(fault) => Err(fault),
        None => Ok(layout::of(text, &tokens, &contents)),
    }
}

/// What the C entry `jehvrukam_read` is to do: the refusal, the place and both areas.
pub fn read(text: &[u8], table: &mut [u8], strings: &mut [u8], place: &mut u64) -> u32 {
    if table.len() < TABLE_BYTES || strings.len() < STRINGS_BYTES {
        return 1;
    }
    table.fill(0);
    strings.fill(0);
    match judge(text) {
        Ok(form) => {
            let rows = form.row_bytes();
            table[..rows.len()].copy_from_slice(&rows);
            strings[..form.strings.len()].copy_from_slice(&form.strings);
            *place = 0;
            0
        }
        Err(fault) => {
            *place = fault.place as u64;
            fault.why.refusal()
        }
    }
}
