//! A writer of another make than `value`, straight from the areas to the output, with one slip in it or none: what the
//! cases are to notice.

use crate::areas::{Areas, CELL_BYTES, ROW_BYTES};
use crate::compare::Writer;
use crate::dates;
use crate::value::{MAX_NESTING, MAX_TEXT_BYTES, MAX_VALUES, OUTPUT_TOO_SHORT, TOO_LARGE};
use harness::slips;

slips! {
    None: "no slip",
    // strings
    QuoteRaw: "a quote is not escaped",
    BackslashRaw: "a backslash is not escaped",
    ControlRaw: "a control character without a short escape stands raw",
    LastControlRaw: "U+001F stands raw",
    ZeroRaw: "U+0000 stands raw",
    ShortAsLong: "a line feed as \\u000a",
    FormFeedAsVerticalTab: "U+000B as \\f",
    UpperHex: "hexadecimal digits in upper case",
    SlashEscaped: "a slash is escaped",
    DeleteEscaped: "U+007F is escaped",
    HighEscaped: "bytes from 0x80 on are escaped",
    ZeroEnds: "a zero byte ends a string",
    NameUnescaped: "names are not escaped",
    // arrays and objects
    CommaTooMany: "a comma after the last part",
    CommaMissing: "no comma before the third part",
    SpaceAfterColon: "a space after a colon",
    EmptyIsNull: "an empty array as null",
    MembersSorted: "members in the order of their names",
    BracesOfArrays: "a context in brackets",
    // integers and instants
    SignDropped: "no sign",
    MinusZero: "0 as -0",
    BiasOneLess: "integers one more",
    HighHalfLost: "integers without their high half",
    SignedWord: "an integer of 64 bits taken as signed",
    InstantUnquoted: "an instant without quotes",
    LatestIsNull: "the latest instant as null",
    PastLatestWritten: "a number past the latest instant as the latest",
    InstantFrom1970: "an instant counted from 1970",
    // limits
    NestingOneMore: "33 nestings",
    NestingOneLess: "31 nestings",
    EmptyNotNested: "an empty array does not nest",
    ValuesOneMore: "1,025 values",
    ValuesOneLess: "1,023 values",
    NamesCounted: "names count as values",
    TextOneMore: "16,385 bytes",
    TextOneLess: "16,383 bytes",
    TextByRoom: "a longer output lifts the limit of the text",
    RoomFirst: "12 before 11",
    RoomOneLess: "12 for a text as long as the output",
    RoomOneMore: "no 12 for a text one byte longer than the output",
    // what is left behind
    TailLeft: "bytes behind the text are not cleared",
    TailByteLeft: "the last byte of the output is not cleared",
    RefusedLeft: "the output is not cleared on 11",
    ShortLeft: "the output is not cleared on 12",
    SizeTold: "12 tells the length of the text",
    SizeLeft: "a refusal leaves the size as it was",
    // areas
    RuleForRecord: "the record's strings are taken from the rule's",
    NamesFromRule: "names are taken from the rule's strings",
    ClippedIsEmpty: "a string that passes the end of its area is empty",
    NameSizeOfByte: "the length of a name has one byte",
    NextRowIsNext: "the row after a container is its first part",
    UnknownRowIsScalar: "the row after one of an unknown kind is the next",
    HalfCell: "a cell that is not whole counts",
    HalfRow: "a row that is not whole counts",
    CellOf32Bits: "the number of a cell has 32 bits",
    CountOf16Bits: "a count has 16 bits",
    UnknownTagIsFalse: "an unknown tag as false",
    MissingIsFalse: "a cell that is not there as false",
    ContextSwapped: "the names of a context the other way round",
    ContextOfTwo: "a context of any count has two members",
    LoneIsCurrent: "the only member of a context is current",
    SharedOnce: "a list that was written is null when met again",
}

/// What may not go on: refused with 11.
struct TooLarge;

/// A cell or row, taken apart.
#[derive(Clone, Copy)]
enum Handle {
    Null,
    False,
    True,
    Integer(u64),
    Instant(u64),
    RuleString(u64, u64),
    RecordString(u64, u64),
    Rows { named: bool, first: u64, count: u64 },
    Cells { context: bool, first: u64, count: u64 },
}

struct Stream<'a> {
    slip: Slip,
    areas: Areas<'a>,
    output: &'a mut [u8],
    at: usize,
    values: usize,
    /// Lists that were written.
    seen: Vec<(u64, u64)>,
}

impl Writer for Wrong {
    fn write(&mut self, areas: Areas, cell: u64, output: &mut [u8], size: &mut u64) -> u32 {
        let slip = self.slip;
        let mut stream = Stream { slip, areas, output, at: 0, values: 0, seen: Vec::new() };
        let cell = if slip == Slip::CellOf32Bits { cell & 0xffff_ffff } else { cell };
        let first = stream.cell(cell);
        let done = stream.value(first, 0);
        let (at, output) = (stream.at, stream.output);
        let is_short = match slip {
            Slip::RoomOneLess => at + 1 > output.len(),
            Slip::RoomOneMore => at > output.len() + 1,
            _ => at > output.len(),
        };
        let refusal = match done {
            Err(TooLarge) if slip == Slip::RoomFirst && at > output.len() => OUTPUT_TOO_SHORT,
            Err(TooLarge) => TOO_LARGE,
            Ok(()) if is_short => OUTPUT_TOO_SHORT,
            Ok(()) => 0,
        };
        let written = if refusal == 0 { at.min(output.len()) } else { 0 };
        let clears = match slip {
            Slip::TailLeft => refusal != 0,
            Slip::RefusedLeft => refusal != TOO_LARGE,
            Slip::ShortLeft => refusal != OUTPUT_TOO_SHORT,
            _ => true,
        };
        if clears {
            let end = output.len() - usize::from(slip == Slip::TailByteLeft && written < output.len());
            output[written..end].fill(0);
        }
        match slip {
            Slip::SizeTold if refusal == OUTPUT_TOO_SHORT => *size = at as u64,
            Slip::SizeLeft if refusal != 0 => {}
            _ => *size = written as u64,
        }
        refusal
    }
}

fn word(bytes: &[u8]) -> u64 {
    let mut eight = [0; 8];
    eight[..bytes.len()].copy_from_slice(bytes);
    u64::from_le_bytes(eight)
}

impl<'a> Stream<'a> {
    fn is(&self, slip: Slip) -> bool {
        self.slip == slip
    }

    // ---- from the areas

    /// The bytes of a row or cell; with a slip the last bytes of the area where one begins that is not whole.
    fn entry<const SIZE: usize>(&self, area: &[u8], number: u64, half: bool) -> Option<[u8; SIZE]> {
        let from = usize::try_from(number).ok()?.checked_mul(SIZE)?;
        let whole = area.get(from..from.checked_add(SIZE)?);
        let last = || area.get(area.len().checked_sub(SIZE)?..).filter(|_| half && from < area.len());
        whole.or_else(last)?.try_into().ok()
    }

    fn row_bytes(&self, row: u64) -> Option<[u8; ROW_BYTES]> {
        self.entry(self.areas.table, row, self.is(Slip::HalfRow))
    }

    fn cell(&self, cell: u64) -> Handle {
        let bytes: [u8; CELL_BYTES] = match self.entry(self.areas.cells, cell, self.is(Slip::HalfCell)) {
            Some(bytes) => bytes,
            None if self.is(Slip::MissingIsFalse) => return Handle::False,
            None => return Handle::Null,
        };
        let (low, high) = (word(&bytes[..4]), word(&bytes[4..7]));
        let both = if self.is(Slip::HighHalfLost) { low } else { word(&bytes[..7]) };
        let count = if self.is(Slip::CountOf16Bits) { high & 0xffff } else { high };
        match bytes[7] {
            1 => Handle::False,
            2 => Handle::True,
            3 => Handle::Integer(both),
            4 => Handle::Instant(both),
            5 => Handle::RuleString(low, high),
            6 => Handle::RecordString(low, high),
            7 | 8 => Handle::Rows { named: bytes[7] == 8, first: low, count },
            9 => Handle::Cells { context: false, first: low, count },
            10 if self.is(Slip::ContextOfTwo) => Handle::Cells { context: true, first: low, count: 2 },
            10 => Handle::Cells { context: true, first: low, count },
            0 => Handle::Null,
            _ if self.is(Slip::UnknownTagIsFalse) => Handle::False,
            _ => Handle::Null,
        }
    }

    fn row(&self, row: u64) -> Handle {
        let bytes = match self.row_bytes(row) {
            Some(bytes) => bytes,
            None => return Handle::Null,
        };
        let (third, fourth) = (word(&bytes[8..12]), word(&bytes[12..]));
        match bytes[0] {
            2 => Handle::False,
            3 => Handle::True,
            4 if self.is(Slip::HighHalfLost) => Handle::Integer(third),
            4 => Handle::Integer(word(&bytes[8..])),
            5 => Handle::RecordString(third, fourth),
            6 | 7 => Handle::Rows { named: bytes[0] == 7, first: row + 1, count: third },
            _ => Handle::Null,
        }
    }

    fn row_after(&self, row: u64) -> u64 {
        match self.row_bytes(row) {
            None => row,
            Some(bytes) => match bytes[0] {
                0..=5 => row + 1,
                6..=7 if self.is(Slip::NextRowIsNext) => row + 1,
                8..=255 if self.is(Slip::UnknownRowIsScalar) => row + 1,
                _ => word(&bytes[12..]),
            },
        }
    }

    fn row_name(&self, row: u64) -> Vec<u8> {
        let area = if self.is(Slip::NamesFromRule) { self.areas.rule } else { self.areas.strings };
        let end = if self.is(Slip::NameSizeOfByte) { 2 } else { 4 };
        self.row_bytes(row).map_or(Vec::new(), |bytes| self.part(area, word(&bytes[4..8]), word(&bytes[1..end])))
    }

    fn part(&self, area: &[u8], start: u64, size: u64) -> Vec<u8> {
        let left = area.get(start as usize..).unwrap_or(&[]);
        if self.is(Slip::ClippedIsEmpty) && (left.len() as u64) < size {
            return Vec::new();
        }
        left[..left.len().min(size as usize)].to_vec()
    }

    /// What name the part at this place of a context has.
    fn context_name(&self, at: u64, count: u64) -> Vec<u8> {
        let mut last = at + 1 == count;
        last ^= self.is(Slip::ContextSwapped);
        last &= !(self.is(Slip::LoneIsCurrent) && count == 1);
        if last { &b"accumulator"[..] } else { b"current" }.to_vec()
    }

    // ---- to the output

    fn put(&mut self, bytes: &[u8]) {
        for &byte in bytes {
            if let Some(place) = self.output.get_mut(self.at) {
                *place = byte;
            }
            self.at += 1;
        }
    }

    fn put_string(&mut self, bytes: &[u8]) {
        self.put(b"\"");
        for &byte in bytes {
            if byte == 0 && self.is(Slip::ZeroEnds) {
                break;
            }
            self.put_byte(byte);
        }
        self.put(b"\"");
    }

    fn put_byte(&mut self, byte: u8) {
        let raw = match self.slip {
            Slip::QuoteRaw => byte == b'"',
            Slip::BackslashRaw => byte == b'\\',
            Slip::ControlRaw => byte < 0x20 && !b"\x08\t\n\x0c\r".contains(&byte),
            Slip::LastControlRaw => byte == 0x1f,
            Slip::ZeroRaw => byte == 0,
            _ => false,
        };
        let short = match byte {
            0x08 => b'b',
            0x09 => b't',
            0x0a if !self.is(Slip::ShortAsLong) => b'n',
            0x0b if self.is(Slip::FormFeedAsVerticalTab) => b'f',
            0x0c => b'f',
            0x0d => b'r',
            b'"' | b'\\' => byte,
            b'/' if self.is(Slip::SlashEscaped) => byte,
            _ => 0,
        };
        let long =
            byte < 0x20 || byte == 0x7f && self.is(Slip::DeleteEscaped) || byte >= 0x80 && self.is(Slip::HighEscaped);
        if raw || short == 0 && !long {
            self.put(&[byte]);
        } else if short != 0 {
            self.put(&[b'\\', short]);
        } else if self.is(Slip::UpperHex) {
            self.put(format!("\\u00{:02X}", byte).as_bytes());
        } else {
            self.put(format!("\\u00{:02x}", byte).as_bytes());
        }
    }

    fn put_integer(&mut self, biased: u64) {
        let mut integer = i128::from(biased) - (1 << 53);
        match self.slip {
            Slip::BiasOneLess => integer += 1,
            Slip::SignedWord => integer = i128::from(biased as i64) - (1 << 53),
            Slip::SignDropped => integer = integer.abs(),
            Slip::MinusZero if integer == 0 => return self.put(b"-0"),
            _ => {}
        }
        self.put(integer.to_string().as_bytes());
    }

    fn put_instant(&mut self, since: u64) {
        let mut ms = i128::from(since) + i128::from(dates::EARLIEST);
        let latest = i128::from(dates::LATEST);
        match self.slip {
            Slip::InstantFrom1970 => ms = i128::from(since),
            Slip::PastLatestWritten => ms = ms.min(latest),
            Slip::LatestIsNull if ms == latest => ms += 1,
            _ => {}
        }
        if ms > latest {
            return self.put(b"null");
        }
        let text = dates::text(ms as i64).unwrap_or([b'?'; 24]);
        if self.is(Slip::InstantUnquoted) {
            self.put(&text);
        } else {
            self.put_string(&text);
        }
    }

    // ---- values

    /// Counts one value; also of a name, with a slip.
    fn count(&mut self) -> Result<(), TooLarge> {
        self.values += 1;
        let most = match self.slip {
            Slip::ValuesOneMore => MAX_VALUES + 1,
            Slip::ValuesOneLess => MAX_VALUES - 1,
            _ => MAX_VALUES,
        };
        if self.values > most {
            return Err(TooLarge);
        }
        Ok(())
    }

    fn short_enough(&self) -> Result<(), TooLarge> {
        let most = match self.slip {
            Slip::TextOneMore => MAX_TEXT_BYTES + 1,
            Slip::TextOneLess => MAX_TEXT_BYTES - 1,
            Slip::TextByRoom => MAX_TEXT_BYTES.max(self.output.len()),
            _ => MAX_TEXT_BYTES,
        };
        if self.at > most {
            return Err(TooLarge);
        }
        Ok(())
    }

    fn value(&mut self, handle: Handle, outside: usize) -> Result<(), TooLarge> {
        self.count()?;
        match handle {
            Handle::Null => self.put(b"null"),
            Handle::False => self.put(b"false"),
            Handle::True => self.put(b"true"),
            Handle::Integer(biased) => self.put_integer(biased),
            Handle::Instant(since) => self.put_instant(since),
            Handle::RuleString(start, size) => {
                let bytes = self.part(self.areas.rule, start, size);
                self.put_string(&bytes);
            }
            Handle::RecordString(start, size) => {
                let area = if self.is(Slip::RuleForRecord) { self.areas.rule } else { self.areas.strings };
                let bytes = self.part(area, start, size);
                self.put_string(&bytes);
            }
            Handle::Rows { named, first, count } => self.parts(handle, named, first, count, outside)?,
            Handle::Cells { context, first, count } => {
                if self.is(Slip::SharedOnce) && count > 0 {
                    if self.seen.contains(&(first, count)) {
                        self.put(b"null");
                        return self.short_enough();
                    }
                    self.seen.push((first, count));
                }
                self.parts(handle, context, first, count, outside)?;
            }
        }
        self.short_enough()
    }

    fn parts(&mut self, of: Handle, named: bool, first: u64, count: u64, outside: usize) -> Result<(), TooLarge> {
        let most = match self.slip {
            Slip::NestingOneMore => MAX_NESTING + 1,
            Slip::NestingOneLess => MAX_NESTING - 1,
            Slip::EmptyNotNested if count == 0 => MAX_NESTING + 1,
            _ => MAX_NESTING,
        };
        if outside >= most {
            return Err(TooLarge);
        }
        if self.is(Slip::EmptyIsNull) && count == 0 && !named {
            self.put(b"null");
            return Ok(());
        }
        let braces = named && !(self.is(Slip::BracesOfArrays) && matches!(of, Handle::Cells { .. }));
        self.put(if braces { b"{" } else { b"[" });
        if self.is(Slip::MembersSorted) && named && count <= MAX_VALUES as u64 {
            self.sorted(of, first, count, outside)?;
        } else {
            let mut place = first;
            for at in 0..count {
                place = self.member(of, named, place, at, count, outside)?;
            }
        }
        if self.is(Slip::CommaTooMany) && count > 0 {
            self.put(b",");
        }
        self.put(if braces { b"}" } else { b"]" });
        Ok(())
    }

    /// One part with what stands before it; gives the place of the next.
    fn member(
        &mut self,
        of: Handle,
        named: bool,
        place: u64,
        at: u64,
        count: u64,
        outside: usize,
    ) -> Result<u64, TooLarge> {
        if at > 0 && !(self.is(Slip::CommaMissing) && at == 2) {
            self.put(b",");
        }
        let (part, name, next) = match of {
            Handle::Cells { .. } => (self.cell(place), self.context_name(at, count), place + 1),
            _ => (self.row(place), self.row_name(place), self.row_after(place)),
        };
        if named {
            if self.is(Slip::NameUnescaped) {
                self.put(b"\"");
                self.put(&name);
                self.put(b"\"");
            } else {
                self.put_string(&name);
            }
            self.put(if self.is(Slip::SpaceAfterColon) { b": " } else { b":" });
            if self.is(Slip::NamesCounted) {
                self.count()?;
            }
        }
        self.short_enough()?;
        self.value(part, outside + 1)?;
        Ok(next)
    }

    /// The members in the order of their names, as RFC 8785, 3.2.3 would have them.
    fn sorted(&mut self, of: Handle, first: u64, count: u64, outside: usize) -> Result<(), TooLarge> {
        let (mut place, mut members) = (first, Vec::new());
        for at in 0..count {
            let (name, next) = match of {
                Handle::Cells { .. } => (self.context_name(at, count), place + 1),
                _ => (self.row_name(place), self.row_after(place)),
            };
            members.push((name, place, at));
            place = next;
        }
        members.sort();
        for (turn, (name, place, _)) in members.into_iter().enumerate() {
            if turn > 0 {
                self.put(b",");
            }
            self.put_string(&name);
            self.put(b":");
            let part = if matches!(of, Handle::Cells { .. }) { self.cell(place) } else { self.row(place) };
            self.short_enough()?;
            self.value(part, outside + 1)?;
        }
        Ok(())
    }
}
