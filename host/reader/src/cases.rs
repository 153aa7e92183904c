//! The cases of `vectors/`, and what an answer of a reader is held to. `vectors/README.md` describes their form.

use crate::{MAX_VALUES, STRINGS_BYTES, VALUE_BYTES};
use std::fmt::Write;
use std::path::{Path, PathBuf};
use std::{fs, str};

pub struct Case {
    pub id: String,
    pub entry: String,
    /// The texts, with the names of their parameters.
    pub texts: Vec<(&'static str, Vec<u8>)>,
    /// Sizes of the areas of `read`, in bytes.
    pub table: usize,
    pub strings: usize,
    /// Bytes of the output area, of the entries that have one.
    pub out: usize,
    expect: String,
}

/// The answer of a reader.
pub struct Answer<'a> {
    pub refusal: u32,
    pub place: u64,
    pub table: &'a [u8],
    pub strings: &'a [u8],
}

/// The folder `vectors/` of the repository.
pub fn folder() -> PathBuf {
    Path::new(env!("CARGO_MANIFEST_DIR")).join("../../vectors")
}

/// All cases, in the order of their files' names.
pub fn all() -> Vec<Case> {
    let mut files: Vec<PathBuf> = fs::read_dir(folder()).unwrap().map(|entry| entry.unwrap().path()).collect();
    files.retain(|file| file.extension().map_or(false, |extension| extension == "jsonl"));
    files.sort();
    let lines = |file| fs::read_to_string(file).unwrap().lines().map(case).collect::<Vec<_>>();
    files.iter().flat_map(lines).collect()
}

/// The content of a member as it is spelled, without the quotes of a string. Serves for our own cases only: no string
/// of theirs holds a quote, a comma or a bracket.
fn member<'a>(line: &'a str, name: &str) -> Option<&'a str> {
    let key = format!("\"{}\":", name);
    let content = &line[line.find(&key)? + key.len()..];
    let content = content[..content.find([',', '}']).unwrap()].trim_matches('"');
    Some(content).filter(|content| *content != "null")
}

fn number(line: &str, name: &str) -> Option<usize> {
    member(line, name).map(|content| content.parse().unwrap())
}

fn bytes(hex: &str) -> Vec<u8> {
    assert!(hex.len() % 2 == 0, "odd number of hexadecimal digits");
    hex.as_bytes().chunks(2).map(|pair| u8::from_str_radix(str::from_utf8(pair).unwrap(), 16).unwrap()).collect()
}

fn case(line: &str) -> Case {
    let (inputs, rest) = line.split_once("\"expect\":").expect("a case has `expect`");
    let (expect, _note) = rest.rsplit_once("\"note\":").expect("a case has `note`");
    let names = ["text", "rule", "sheet", "record"];
    Case {
        id: member(inputs, "id").unwrap().to_string(),
        entry: member(inputs, "entry").unwrap().to_string(),
        texts: names.iter().filter_map(|name| Some((*name, bytes(member(inputs, name)?)))).collect(),
        table: number(inputs, "table").unwrap_or(MAX_VALUES) * VALUE_BYTES,
        strings: number(inputs, "area").unwrap_or(STRINGS_BYTES),
        out: number(inputs, "out").unwrap_or(0),
        expect: expect.to_string(),
    }
}

impl Case {
    /// The refusal that is expected, 0 for none.
    pub fn refusal(&self) -> Option<u32> {
        number(&self.expect, "refusal").map(|refusal| refusal as u32)
    }

    /// A text that is expected: the `answer` of an evaluation, or how a read value is `written`.
    pub fn expected_text(&self, name: &str) -> Option<Vec<u8>> {
        member(&self.expect, name).map(bytes)
    }

    /// What a reader is to say to one of the texts, refusal and place, as far as the case decides it.
    pub fn verdict(&self, name: &str) -> Option<(u32, u64)> {
        let refusal = self.refusal()?;
        let place = number(&self.expect, "place").map(|place| place as u64);
        match (self.entry.as_str(), refusal) {
            ("read", 0) => Some((0, 0)),
            ("read", 1) => None,
            ("read", _) => Some((refusal, place.expect("a refused text has a place"))),
            (_, 2..=5) if member(&self.expect, "text") == Some(name) => Some((refusal, place?)),
            (_, 0 | 7..=12) => Some((0, 0)),
            _ => None,
        }
    }

    /// Holds the answer to a case of `read` to what is expected; says what is wrong.
    pub fn check(&self, answer: &Answer) -> Result<(), String> {
        let same = |what: &str, got: &str, expected: Option<&str>| match expected {
            Some(expected) if expected != got => Err(format!("{} {}, expected {}", what, got, expected)),
            _ => Ok(()),
        };
        let expected = |name| member(&self.expect, name);
        same("refusal", &answer.refusal.to_string(), expected("refusal"))?;
        if answer.refusal != 1 {
            same("place", &answer.place.to_string(), expected("place").or(Some("0")))?;
        }
        if answer.refusal == 0 {
            let walk = Walk::of(answer.table, answer.strings);
            same("values", &walk.values.to_string(), expected("values"))?;
            same("nesting", &walk.nesting.to_string(), expected("nest"))?;
            same("walk", &walk.kinds, expected("walk"))?;
            let hex = walk.written.iter().fold(String::new(), |hex, byte| hex + &format!("{:02x}", byte));
            same("written", &hex, expected("written"))?;
        }
        Ok(())
    }
}

/// What the areas of a read text say, found by walking the rows from the root.
#[derive(Default)]
struct Walk {
    values: usize,
    nesting: usize,
    kinds: String,
    written: Vec<u8>,
}

impl Walk {
    fn of(table: &[u8], strings: &[u8]) -> Walk {
        let mut walk = Walk::default();
        let end = walk.value(table, strings, 0, 0);
        assert_eq!(end, walk.values, "the root's end is the number of rows");
        walk
    }

    /// Walks the value of a row; gives the row after it.
    fn value(&mut self, table: &[u8], strings: &[u8], row: usize, nesting: usize) -> usize {
        let field = |row: usize, n: usize| {
            let at = 16 * row + 4 * n;
            u32::from_le_bytes([table[at], table[at + 1], table[at + 2], table[at + 3]]) as usize
        };
        let text = |start: usize, length: usize| str::from_utf8(&strings[start..start + length]).unwrap();
        self.values += 1;
        let (kind, third, fourth) = (field(row, 0) % 256, field(row, 2), field(row, 3));
        self.kinds.push(b"?nbbisao"[kind] as char);
        match kind {
            1 => self.written.extend(b"null"),
            2 => self.written.extend(b"false"),
            3 => self.written.extend(b"true"),
            4 => self.written.extend((third as i64 + ((fourth as i64) << 32) - (1 << 53)).to_string().bytes()),
            5 => self.string(text(third, fourth)),
            _ => {
                self.nesting = self.nesting.max(nesting + 1);
                write!(self.kinds, "{}", third).unwrap();
                self.written.push(if kind == 6 { b'[' } else { b'{' });
                let mut next = row + 1;
                for item in 0..third {
                    if item > 0 {
                        self.written.push(b',');
                    }
                    if kind == 7 {
                        self.string(text(field(next, 1), field(next, 0) / 256));
                        self.written.push(b':');
                    }
                    next = self.value(table, strings, next, nesting + 1);
                }
                self.written.push(if kind == 6 { b']' } else { b'}' });
                assert_eq!(next, fourth, "the end of row {}", row);
            }
        }
        if kind >= 6 {
            fourth
        } else {
            row + 1
        }
    }

    /// Writes a string with the escapes of RFC 8785.
    fn string(&mut self, content: &str) {
        self.written.push(b'"');
        for character in content.chars() {
            let escaped = match character {
                '"' | '\\' => format!("\\{}", character),
                '\u{8}' => "\\b".to_string(),
                '\t' => "\\t".to_string(),
                '\n' => "\\n".to_string(),
                '\u{c}' => "\\f".to_string(),
                '\r' => "\\r".to_string(),
                '\0'..='\u{1f}' => format!("\\u{:04x}", u32::from(character)),
                _ => character.to_string(),
            };
            self.written.extend(escaped.bytes());
        }
        self.written.push(b'"');
    }
}
