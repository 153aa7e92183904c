//! A walk over a read text as a host does it: by the viewer's answers alone, from place 0.

use crate::view::{Entry, Viewer, DONE};
use reader::{judge, Form};

/// What the walk sees is the value that was read, and nothing else: the text that it writes reads as the same form.
pub fn shows(viewer: &mut dyn Viewer, table: &[u8], strings: &[u8], form: &Form) -> bool {
    let mut walk = Walk { viewer, table, strings, text: Vec::new() };
    walk.value(0).is_some() && judge(&walk.text).as_ref() == Ok(form)
}

struct Walk<'a> {
    viewer: &'a mut dyn Viewer,
    table: &'a [u8],
    strings: &'a [u8],
    text: Vec<u8>,
}

impl Walk<'_> {
    fn ask(&mut self, entry: Entry, place: u64, nth: u64) -> Option<[u64; 2]> {
        let [mut first, mut second] = [0, 0];
        let refusal = self.viewer.ask(entry, self.table, place, nth, [&mut first, &mut second]);
        Some([first, second]).filter(|_| refusal == DONE)
    }

    /// Writes the value at a place; nothing if the viewer refuses.
    fn value(&mut self, place: u64) -> Option<()> {
        let [kind, count] = self.ask(Entry::View, place, 0)?;
        match kind {
            1 => self.text.extend(b"null"),
            2 => self.text.extend(b"false"),
            3 => self.text.extend(b"true"),
            4 => {
                let [integer, _] = self.ask(Entry::Integer, place, 0)?;
                self.text.extend((integer as i64).to_string().bytes());
            }
            5 => self.string(Entry::String, place)?,
            6 => self.parts(place, count, b"[]", false)?,
            _ => self.parts(place, count, b"{}", true)?,
        }
        Some(())
    }

    fn parts(&mut self, place: u64, count: u64, brackets: &[u8; 2], are_members: bool) -> Option<()> {
        self.text.push(brackets[0]);
        for nth in 0..count {
            if nth > 0 {
                self.text.push(b',');
            }
            let [part, _] = self.ask(Entry::Part, place, nth)?;
            if are_members {
                self.string(Entry::Name, part)?;
                self.text.push(b':');
            }
            self.value(part)?;
        }
        self.text.push(brackets[1]);
        Some(())
    }

    /// Writes a string or a name in as few bytes as can be: the text is not longer than the one that was read.
    fn string(&mut self, entry: Entry, place: u64) -> Option<()> {
        let [start, length] = self.ask(entry, place, 0)?;
        self.text.push(b'"');
        for &byte in self.strings.get(start as usize..(start + length) as usize)? {
            match byte {
                b'"' | b'\\' => self.text.extend([b'\\', byte]),
                8 => self.text.extend(b"\\b"),
                b'\t' => self.text.extend(b"\\t"),
                b'\n' => self.text.extend(b"\\n"),
                12 => self.text.extend(b"\\f"),
                b'\r' => self.text.extend(b"\\r"),
                0..=31 => self.text.extend(format!("\\u{:04x}", byte).bytes()),
                _ => self.text.push(byte),
            }
        }
        self.text.push(b'"');
        Some(())
    }
}
