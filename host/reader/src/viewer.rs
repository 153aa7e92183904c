//! The viewer, written from docs/LAYOUT.md and include/jehvrukam.h, to compare the proved one with.
//!
//! Where the proved viewer looks at a row when it is asked for it, and goes from one part of a container to the next,
//! this one looks at all rows of a table beforehand, and at all parts of a container at once.

use crate::{MAX_VALUES, STRINGS_BYTES};

pub const ROW_BYTES: usize = 16;

/// Why nothing is told.
#[derive(Clone, Copy, Debug, PartialEq, Eq, PartialOrd, Ord)]
pub enum Untold {
    NoRow,
    // a row that has not the form
    NoKind,
    NameBeyond,
    WordWithNumber,
    IntegerZero,
    IntegerBeyond,
    StringBeyond,
    EndsEarly,
    EndsLate,
    CountZero,
    CountTooLarge,
    // a value that is something else
    NoInteger,
    NoString,
    // a part that is not there, or behind one that is not
    NoNumber,
    PartMissing,
    PartWithoutForm,
    PartPastEnd,
    BehindMissing,
    BehindWithoutForm,
    BehindPastEnd,
}

impl Untold {
    pub const ALL: [Untold; 20] = [
        Untold::NoRow,
        Untold::NoKind,
        Untold::NameBeyond,
        Untold::WordWithNumber,
        Untold::IntegerZero,
        Untold::IntegerBeyond,
        Untold::StringBeyond,
        Untold::EndsEarly,
        Untold::EndsLate,
        Untold::CountZero,
        Untold::CountTooLarge,
        Untold::NoInteger,
        Untold::NoString,
        Untold::NoNumber,
        Untold::PartMissing,
        Untold::PartWithoutForm,
        Untold::PartPastEnd,
        Untold::BehindMissing,
        Untold::BehindWithoutForm,
        Untold::BehindPastEnd,
    ];

    /// Of the parts behind one that is not told.
    fn behind(self) -> Untold {
        match self {
            Untold::PartMissing => Untold::BehindMissing,
            Untold::PartWithoutForm => Untold::BehindWithoutForm,
            Untold::PartPastEnd => Untold::BehindPastEnd,
            other => other,
        }
    }
}

/// A part of a strings area.
#[derive(Clone, Copy, Debug, PartialEq, Eq)]
pub struct Span {
    pub start: u64,
    pub length: u64,
}

#[derive(Clone, Copy, Debug, PartialEq, Eq)]
enum Content {
    Word,
    Integer(i64),
    String(Span),
    Container { count: u64, end: u64 },
}

/// A row that has the form.
#[derive(Clone, Copy, Debug, PartialEq, Eq)]
struct Row {
    kind: u64,
    name: Span,
    content: Content,
    /// The row after it and all that it holds.
    end: u64,
}

/// What is told of the parts of a value.
#[derive(Clone, Debug, PartialEq, Eq)]
pub struct Parts {
    pub count: u64,
    /// The rows of the parts that are told, in order.
    pub rows: Vec<u64>,
    /// Why no further one is, if they are fewer than the count.
    stop: Untold,
}

impl Parts {
    pub fn nth(&self, nth: u64) -> Result<u64, Untold> {
        let told = self.rows.len() as u64;
        match nth {
            _ if nth >= self.count => Err(Untold::NoNumber),
            _ if nth < told => Ok(self.rows[nth as usize]),
            _ if nth == told => Err(self.stop),
            _ => Err(self.stop.behind()),
        }
    }
}

/// What all rows of a table say.
pub struct Viewer {
    rows: Vec<Result<Row, Untold>>,
}

impl Viewer {
    pub fn of(table: &[u8]) -> Viewer {
        let whole: Vec<&[u8]> = table.chunks_exact(ROW_BYTES).take(MAX_VALUES).collect();
        let count = whole.len() as u64;
        Viewer { rows: (0..count).zip(whole).map(|(place, bytes)| row(bytes, place, count)).collect() }
    }

    /// How many rows the table has.
    pub fn rows(&self) -> u64 {
        self.rows.len() as u64
    }

    fn row(&self, place: u64) -> Result<Row, Untold> {
        let found = usize::try_from(place).ok().and_then(|place| self.rows.get(place));
        found.copied().unwrap_or(Err(Untold::NoRow))
    }

    /// The kind and the count of the value at a place.
    pub fn value(&self, place: u64) -> Result<(u64, u64), Untold> {
        let row = self.row(place)?;
        match row.content {
            Content::Container { count, .. } => Ok((row.kind, count)),
            _ => Ok((row.kind, 0)),
        }
    }

    pub fn integer(&self, place: u64) -> Result<i64, Untold> {
        match self.row(place)?.content {
            Content::Integer(integer) => Ok(integer),
            _ => Err(Untold::NoInteger),
        }
    }

    pub fn string(&self, place: u64) -> Result<Span, Untold> {
        match self.row(place)?.content {
            Content::String(string) => Ok(string),
            _ => Err(Untold::NoString),
        }
    }

    pub fn name(&self, place: u64) -> Result<Span, Untold> {
        Ok(self.row(place)?.name)
    }

    /// All parts of the value at a place.
    pub fn parts(&self, place: u64) -> Result<Parts, Untold> {
        let mut parts = Parts { count: 0, rows: Vec::new(), stop: Untold::PartMissing };
        let (count, end) = match self.row(place)?.content {
            Content::Container { count, end } => (count, end),
            _ => return Ok(parts),
        };
        parts.count = count;
        let mut next = place + 1;
        while (parts.rows.len() as u64) < count && next < end {
            match self.row(next) {
                Err(_) => parts.stop = Untold::PartWithoutForm,
                Ok(row) if row.end > end => parts.stop = Untold::PartPastEnd,
                Ok(row) => {
                    parts.rows.push(next);
                    next = row.end;
                    continue;
                }
            }
            break;
        }
        Ok(parts)
    }

    pub fn part(&self, place: u64, nth: u64) -> Result<u64, Untold> {
        self.parts(place)?.nth(nth)
    }
}

/// What the row at a place of so many rows says.
fn row(bytes: &[u8], place: u64, rows: u64) -> Result<Row, Untold> {
    let number = |at: usize| bytes[at..at + 4].iter().rev().fold(0, |sum, &byte| sum << 8 | u64::from(byte));
    let (kind, length) = (number(0) % 256, number(0) / 256);
    let (third, fourth) = (number(8), number(12));
    let content = content(kind, third, fourth, place, rows)?;
    let name = span(number(4), length).ok_or(Untold::NameBeyond)?;
    let end = match content {
        Content::Container { end, .. } => end,
        _ => place + 1,
    };
    Ok(Row { kind, name, content, end })
}

fn content(kind: u64, third: u64, fourth: u64, place: u64, rows: u64) -> Result<Content, Untold> {
    match kind {
        1..=3 if (third, fourth) == (0, 0) => Ok(Content::Word),
        1..=3 => Err(Untold::WordWithNumber),
        4 => integer(fourth << 32 | third),
        5 => span(third, fourth).map(Content::String).ok_or(Untold::StringBeyond),
        6 | 7 => container(third, fourth, place, rows),
        _ => Err(Untold::NoKind),
    }
}

fn integer(number: u64) -> Result<Content, Untold> {
    match number {
        0 => Err(Untold::IntegerZero),
        _ if number >> 54 != 0 => Err(Untold::IntegerBeyond),
        _ => Ok(Content::Integer(number as i64 - (1 << 53))),
    }
}

fn span(start: u64, length: u64) -> Option<Span> {
    Some(Span { start, length }).filter(|_| start + length <= STRINGS_BYTES as u64)
}

fn container(count: u64, end: u64, place: u64, rows: u64) -> Result<Content, Untold> {
    let first = place + 1;
    match count {
        _ if end < first => Err(Untold::EndsEarly),
        _ if end > rows => Err(Untold::EndsLate),
        0 if end > first => Err(Untold::CountZero),
        _ if count > end - first => Err(Untold::CountTooLarge),
        _ => Ok(Content::Container { count, end }),
    }
}

#[cfg(test)]
mod tests {
    use super::*;
    use crate::judge;

    fn table(rows: &[[u32; 4]]) -> Vec<u8> {
        rows.iter().flatten().flat_map(|field| field.to_le_bytes()).collect()
    }

    fn viewer(rows: &[[u32; 4]]) -> Viewer {
        Viewer::of(&table(rows))
    }

    const NULL: [u32; 4] = [1, 0, 0, 0];

    #[test]
    fn a_read_text() {
        let form = judge(br#" {"a":[true,-1,"x\n"],"":{"b":null},"cd":[]} "#).unwrap();
        let viewer = Viewer::of(&form.row_bytes());
        let values: Vec<_> = (0..9).map(|place| viewer.value(place)).collect();
        let seen = [(7, 3), (6, 3), (3, 0), (4, 0), (5, 0), (7, 1), (1, 0), (6, 0)];
        assert_eq!(values[..8], seen.map(Ok));
        assert_eq!(values[8], Err(Untold::NoRow));
        assert_eq!(viewer.parts(0).unwrap().rows, [1, 5, 7]);
        assert_eq!(viewer.parts(1).unwrap().rows, [2, 3, 4]);
        assert_eq!(viewer.parts(5).unwrap().rows, [6]);
        assert_eq!([0, 2, 7].map(|place| viewer.part(place, 3)), [Err(Untold::NoNumber); 3]);
        assert_eq!(viewer.integer(3), Ok(-1));
        assert_eq!(viewer.integer(4), Err(Untold::NoInteger));
        assert_eq!(viewer.string(4), Ok(Span { start: 1, length: 2 }));
        assert_eq!(viewer.string(3), Err(Untold::NoString));
        assert_eq!(viewer.name(7), Ok(Span { start: 4, length: 2 }));
        assert_eq!([0, 2].map(|place| viewer.name(place)), [Ok(Span { start: 0, length: 0 }); 2]);
        assert_eq!(viewer.value(u64::MAX), Err(Untold::NoRow));
        assert_eq!(viewer.part(0, u64::MAX), Err(Untold::NoNumber));
    }

    #[test]
    fn rows_that_are_there() {
        let rows = table(&[NULL; 1030]);
        let count = |length: usize| Viewer::of(&rows[..length]).rows();
        assert_eq!([0, 15, 16, 17, 31, 32].map(count), [0, 0, 1, 1, 1, 2]);
        assert_eq!([16 * 1023 + 15, 16 * 1024, 16 * 1024 + 16, 16 * 1030].map(count), [1023, 1024, 1024, 1024]);
    }

    /// What is told of row 1 of three.
    fn of_row(row: [u32; 4]) -> Result<(u64, u64), Untold> {
        viewer(&[NULL, row, NULL]).value(1)
    }

    #[test]
    fn words_and_kinds() {
        assert_eq!([1, 2, 3].map(|kind| of_row([kind, 0, 0, 0])), [1, 2, 3].map(|kind| Ok((kind, 0))));
        assert_eq!([0, 8, 128, 255].map(|kind| of_row([kind, 0, 0, 0])), [Err(Untold::NoKind); 4]);
        for kind in 1..=3 {
            assert_eq!(of_row([kind, 0, 1, 0]), Err(Untold::WordWithNumber));
            assert_eq!(of_row([kind, 0, u32::MAX, 1]), Err(Untold::WordWithNumber));
            assert_eq!(of_row([kind, 0, 0, 1 << 31]), Err(Untold::WordWithNumber));
        }
    }

    #[test]
    fn integers() {
        let of = |number: u64| viewer(&[[4, 0, number as u32, (number >> 32) as u32]]).integer(0);
        assert_eq!(of(1), Ok(-9_007_199_254_740_991));
        assert_eq!(of((1 << 54) - 1), Ok(9_007_199_254_740_991));
        assert_eq!([of((1 << 53) - 1), of(1 << 53)], [Ok(-1), Ok(0)]);
        assert_eq!([of(0), of(1 << 54), of(u64::MAX)].map(Result::unwrap_err)[..], {
            [Untold::IntegerZero, Untold::IntegerBeyond, Untold::IntegerBeyond]
        });
    }

    #[test]
    fn strings_and_names() {
        for (start, length) in [(0, 0), (0, 16_384), (16_384, 0), (16_383, 1)] {
            assert_eq!(of_row([5, 0, start, length]), Ok((5, 0)));
            assert_eq!(of_row([2 + 256 * length, start, 0, 0]), Ok((2, 0)));
        }
        for (start, length) in [(0, 16_385), (1, 16_384), (16_384, 1), (16_385, 0), (u32::MAX, 1)] {
            assert_eq!(of_row([5, 0, start, length]), Err(Untold::StringBeyond));
            assert_eq!(of_row([2 + 256 * length, start, 0, 0]), Err(Untold::NameBeyond));
        }
    }

    #[test]
    fn containers() {
        for kind in [6, 7] {
            assert_eq!(of_row([kind, 0, 0, 2]), Ok((u64::from(kind), 0)));
            assert_eq!(of_row([kind, 0, 1, 3]), Ok((u64::from(kind), 1)));
            assert_eq!([0, 1].map(|end| of_row([kind, 0, 0, end])), [Err(Untold::EndsEarly); 2]);
            assert_eq!([4, u32::MAX].map(|end| of_row([kind, 0, 1, end])), [Err(Untold::EndsLate); 2]);
            assert_eq!(of_row([kind, 0, 0, 3]), Err(Untold::CountZero));
            assert_eq!([(1, 2), (2, 3)].map(|(n, end)| of_row([kind, 0, n, end])), [Err(Untold::CountTooLarge); 2]);
        }
    }

    #[test]
    fn parts() {
        let of = |rows: &[[u32; 4]]| {
            let parts = viewer(rows).parts(0).unwrap();
            let stop = parts.nth(parts.rows.len() as u64).unwrap_err();
            (parts.rows.clone(), stop, parts.nth(parts.rows.len() as u64 + 1).unwrap_err())
        };
        let none = Untold::NoNumber;
        assert_eq!(of(&[[6, 0, 2, 4], [6, 0, 1, 3], NULL, NULL]), (vec![1, 3], none, none));
        assert_eq!(of(&[[6, 0, 1, 3], NULL, NULL]), (vec![1], none, none));
        let (missing, behind) = (Untold::PartMissing, Untold::BehindMissing);
        assert_eq!(of(&[[6, 0, 3, 4], [6, 0, 2, 4], NULL, NULL, NULL]), (vec![1], missing, behind));
        let (damaged, behind) = (Untold::PartWithoutForm, Untold::BehindWithoutForm);
        assert_eq!(of(&[[6, 0, 3, 4], NULL, [0; 4], NULL]), (vec![1], damaged, behind));
        let (past, behind) = (Untold::PartPastEnd, Untold::BehindPastEnd);
        assert_eq!(of(&[[7, 0, 3, 4], NULL, [6, 0, 2, 5], NULL, NULL]), (vec![1], past, behind));
        assert_eq!(of(&[NULL]), (vec![], none, none));
        assert_eq!(viewer(&[[6, 0, 0, 0]]).parts(0), Err(Untold::EndsEarly));
    }
}
