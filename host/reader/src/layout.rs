//! The bytes of both areas.
//!
//! A row has four 32-bit fields, one row a value in text order: kind and length of the member's name; start of that
//! name; two fields by kind. The strings area has the decoded names and strings in text order.

use crate::machine::{Sort, Token};
use crate::strings::Content;
use std::str;

/// What the areas hold of a text that was read: the rows, and the bytes of names and strings. Zeros follow.
#[derive(Clone, Debug, Default, PartialEq, Eq)]
pub struct Form {
    pub rows: Vec<[u32; 4]>,
    pub strings: Vec<u8>,
}

impl Form {
    /// The rows as they stand in the table, each field with its lowest byte first.
    pub fn row_bytes(&self) -> Vec<u8> {
        self.rows.iter().flatten().flat_map(|field| field.to_le_bytes()).collect()
    }

    /// Puts a name or string into the strings area; gives its start and length.
    fn put(&mut self, content: &Content) -> [u32; 2] {
        let start = self.strings.len();
        self.strings.extend_from_slice(content.decoded.as_bytes());
        [start as u32, content.decoded.len() as u32]
    }
}

/// The read form of a text without a fault, with these tokens and their contents.
pub fn of(text: &[u8], tokens: &[Token], contents: &[Content]) -> Form {
    let mut form = Form::default();
    let mut open: Vec<usize> = Vec::new(); // the rows of the arrays and objects that are open
    let mut name = [0, 0];
    for (token, content) in tokens.iter().zip(contents) {
        match token.sort {
            Sort::Name => name = form.put(content),
            Sort::Close => {
                let row = open.pop().unwrap();
                form.rows[row][3] = form.rows.len() as u32;
            }
            _ => {
                let (kind, [third, fourth]) = match token.sort {
                    Sort::Null => (1, [0, 0]),
                    Sort::False => (2, [0, 0]),
                    Sort::True => (3, [0, 0]),
                    Sort::Number => (4, integer_fields(&text[token.begin..token.end])),
                    Sort::Text => (5, form.put(content)),
                    Sort::Array => (6, [0, 0]),
                    _ => (7, [0, 0]),
                };
                if let Some(&parent) = open.last() {
                    form.rows[parent][2] += 1;
                }
                if kind >= 6 {
                    open.push(form.rows.len());
                }
                let [start, length] = std::mem::take(&mut name);
                form.rows.push([kind + 256 * length, start, third, fourth]);
            }
        }
    }
    form
}

/// The number that is an integer and 2^53 more, its low half first.
fn integer_fields(spelled: &[u8]) -> [u32; 2] {
    let integer: i64 = str::from_utf8(spelled).unwrap().parse().unwrap();
    let shifted = integer + (1 << 53);
    [(shifted % (1 << 32)) as u32, (shifted >> 32) as u32]
}

#[cfg(test)]
mod tests {
    use crate::{judge, read, STRINGS_BYTES, TABLE_BYTES};

    #[test]
    fn rows_and_strings() {
        let form = judge(br#" {"a":[true,-1,"x\n"],"":{"b":null},"cd":[]} "#).unwrap();
        assert_eq!(form.strings, b"ax\nbcd");
        assert_eq!(
            form.rows,
            [
                [7, 0, 3, 8],
                [6 + 256, 0, 3, 5],
                [3, 0, 0, 0],
                [4, 0, 0xffff_ffff, 0x1f_ffff],
                [5, 0, 1, 2],
                [7, 3, 1, 7],
                [1 + 256, 3, 0, 0],
                [6 + 512, 4, 0, 8],
            ]
        );
        assert_eq!(judge(b"9007199254740991").unwrap().rows, [[4, 0, 0xffff_ffff, 0x3f_ffff]]);
        assert_eq!(judge(b"-9007199254740991").unwrap().rows, [[4, 0, 1, 0]]);
        assert_eq!(judge(b"-0").unwrap().rows, judge(b"0").unwrap().rows);
    }

    #[test]
    fn areas() {
        let (mut table, mut strings, mut place) = ([7; TABLE_BYTES + 5], [7; STRINGS_BYTES + 5], 7);
        assert_eq!(read(b"1", &mut table[..TABLE_BYTES - 1], &mut strings, &mut place), 1);
        assert_eq!(read(b"1", &mut table, &mut strings[..STRINGS_BYTES - 1], &mut place), 1);
        assert!(table.iter().chain(&strings).all(|&byte| byte == 7) && place == 7);
        assert_eq!(read(b"[1.", &mut table, &mut strings, &mut place), 4);
        assert!(table.iter().chain(&strings).all(|&byte| byte == 0) && place == 2);
        assert_eq!(read(b"\"ab\"", &mut table, &mut strings, &mut place), 0);
        assert_eq!(table[..17], [5, 0, 0, 0, 0, 0, 0, 0, 0, 0, 0, 0, 2, 0, 0, 0, 0]);
        assert!(strings.starts_with(b"ab\0") && place == 0);
    }
}
