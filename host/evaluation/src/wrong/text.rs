//! The text of an answer.

use super::run::Item;
use super::{Slip, Wrong};
use crate::dates;
use std::rc::Rc;
use writer::value::{Value, MAX_NESTING, MAX_TEXT_BYTES, MAX_VALUES, OUTPUT_TOO_SHORT, TOO_LARGE};

struct Stream {
    wrong: Wrong,
    text: Vec<u8>,
    values: usize,
    room: usize,
    /// Where the lists that were written stand.
    seen: Vec<usize>,
}

type Done = Result<(), u32>;

impl Wrong {
    /// The text of a value, or 11; 12 is left to the caller.
    pub fn text(&self, item: &Item, room: usize) -> Result<Vec<u8>, u32> {
        let mut stream = Stream { wrong: *self, text: Vec::new(), values: 0, room, seen: Vec::new() };
        match stream.item(item, 0) {
            Err(_) if self.is(Slip::RoomFirst) && stream.text.len() > room => Err(OUTPUT_TOO_SHORT),
            Err(refusal) => Err(refusal),
            Ok(()) => Ok(stream.text),
        }
    }
}

impl Stream {
    fn is(&self, slip: Slip) -> bool {
        self.wrong.slip == slip
    }

    fn put(&mut self, bytes: &[u8]) -> Done {
        self.text.extend_from_slice(bytes);
        let most = match self.wrong.slip {
            Slip::TextOneMore => MAX_TEXT_BYTES + 1,
            Slip::TextOneLess => MAX_TEXT_BYTES - 1,
            Slip::TextByRoom => MAX_TEXT_BYTES.max(self.room),
            _ => MAX_TEXT_BYTES,
        };
        if self.text.len() > most {
            return Err(TOO_LARGE);
        }
        Ok(())
    }

    fn item(&mut self, item: &Item, outside: usize) -> Done {
        self.values += 1;
        let most = match self.wrong.slip {
            Slip::ValuesOneMore => MAX_VALUES + 1,
            Slip::ValuesOneLess => MAX_VALUES - 1,
            _ => MAX_VALUES,
        };
        if self.values > most {
            return Err(TOO_LARGE);
        }
        match item {
            Item::Null => self.put(b"null"),
            Item::Boolean(boolean) => self.put(boolean.to_string().as_bytes()),
            Item::Integer(integer) => self.put(integer.to_string().as_bytes()),
            Item::String(bytes) => self.string(bytes),
            Item::Instant(ms) => {
                let text = dates::text(*ms).map_err(|_| 9_u32)?;
                if self.is(Slip::InstantUnquoted) {
                    self.put(&text)
                } else {
                    self.string(&text)
                }
            }
            Item::Read(Value::Object(members)) => {
                let members = members.iter().map(|(name, content)| (Some(&name[..]), Item::of(content)));
                self.parts(members.collect(), b"{}", outside)
            }
            Item::Read(array) => {
                let items = array.parts().map(|item| (None, Item::of(item)));
                self.parts(items.collect(), b"[]", outside)
            }
            Item::List(items) => {
                let place = Rc::as_ptr(items) as usize;
                if self.is(Slip::SharedOnce) && !items.is_empty() {
                    if self.seen.contains(&place) {
                        return self.put(b"null");
                    }
                    self.seen.push(place);
                }
                self.parts(items.iter().map(|item| (None, item.clone())).collect(), b"[]", outside)
            }
            Item::Context(parts) => {
                let mut members =
                    vec![(Some(&b"current"[..]), parts[0].clone()), (Some(&b"accumulator"[..]), parts[1].clone())];
                if self.is(Slip::ContextOrder) {
                    members.reverse();
                }
                self.parts(members, b"{}", outside)
            }
        }
    }

    fn parts(&mut self, parts: Vec<(Option<&[u8]>, Item)>, brackets: &[u8; 2], outside: usize) -> Done {
        let most = match self.wrong.slip {
            Slip::NestingOneMore => MAX_NESTING + 1,
            Slip::NestingOneLess => MAX_NESTING - 1,
            _ => MAX_NESTING,
        };
        if outside >= most {
            return Err(TOO_LARGE);
        }
        self.put(&brackets[..1])?;
        for (at, (name, part)) in parts.iter().enumerate() {
            if at > 0 {
                self.put(b",")?;
            }
            if let Some(name) = name {
                self.string(name)?;
                self.put(b":")?;
            }
            self.item(part, outside + 1)?;
        }
        self.put(&brackets[1..])
    }

    fn string(&mut self, bytes: &[u8]) -> Done {
        self.put(b"\"")?;
        for &byte in bytes {
            let short = match byte {
                0x08 => b'b',
                0x09 => b't',
                0x0a => b'n',
                0x0c => b'f',
                0x0d => b'r',
                b'"' | b'\\' => byte,
                b'/' if self.is(Slip::EscapeKept) => byte,
                _ => 0,
            };
            match byte {
                _ if short != 0 => self.put(&[b'\\', short])?,
                0x00..=0x1f if !self.is(Slip::ControlRaw) => self.put(format!("\\u{:04x}", byte).as_bytes())?,
                _ => self.put(&[byte])?,
            }
        }
        self.put(b"\"")
    }
}
