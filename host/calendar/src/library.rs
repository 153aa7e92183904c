//! Calls the C entries, with noise in what they are to write and around it.

use crate::random::Random;

#[link(name = "test_calendar", kind = "static")]
extern "C" {
    fn calendar_read_date(text: *const u8, text_len: usize, ms: *mut i64) -> u32;
    fn calendar_read_day(text: *const u8, text_len: usize, ms: *mut i64) -> u32;
    fn calendar_shift(from: i64, amount: i64, unit: u32, ms: *mut i64) -> u32;
    fn calendar_text(ms: i64, text: *mut u8, text_len: usize) -> u32;
}

const GUARD: usize = 8; // bytes before and behind an area that nothing may touch
pub const LARGEST: usize = 96; // bytes of a text or an area

/// The number of an answer and the milliseconds that were written; None if anything else was touched.
pub type Answer = Option<(u32, i64)>;

pub struct Library {
    random: Random,
}

impl Library {
    pub fn new() -> Library {
        Library { random: Random::new(0) }
    }

    /// Milliseconds between two guards, each a noise.
    fn put(&mut self, call: impl FnOnce(&mut i64) -> u32) -> Answer {
        let noise = self.random.next() as i64;
        let mut places = [noise, !noise, noise];
        let number = call(&mut places[1]);
        Some((number, places[1])).filter(|_| places[0] == noise && places[2] == noise)
    }

    /// A text at any address, with bytes behind it that would make it longer.
    fn read(&mut self, text: &[u8], entry: unsafe extern "C" fn(*const u8, usize, *mut i64) -> u32) -> Answer {
        let shift = self.random.below(8);
        let behind = self.random.pick(&[b"00000000", b"-01-01T0", b"T00:00:0", b"Z0000000", b"+00:0000", b".000Z000"]);
        let mut buffer = [0; 8 + LARGEST + 8];
        let end = shift + text.len();
        buffer[shift..end].copy_from_slice(text);
        buffer[end..end + 8].copy_from_slice(behind);
        let given = buffer;
        // SAFETY: the text has this length.
        let answer = self.put(|ms| unsafe { entry(buffer[shift..].as_ptr(), text.len(), ms) });
        answer.filter(|_| buffer == given)
    }

    pub fn read_date(&mut self, text: &[u8]) -> Answer {
        self.read(text, calendar_read_date)
    }

    pub fn read_day(&mut self, text: &[u8]) -> Answer {
        self.read(text, calendar_read_day)
    }

    pub fn shift(&mut self, from: i64, amount: i64, unit: u32) -> Answer {
        // SAFETY: the milliseconds are borrowed alone.
        self.put(|ms| unsafe { calendar_shift(from, amount, unit, ms) })
    }

    /// The number and the area's bytes: before and after the call. None if anything else was touched.
    pub fn text(&mut self, ms: i64, length: usize) -> Option<(u32, Vec<u8>, Vec<u8>)> {
        let begin = GUARD + self.random.below(8);
        let end = begin + length;
        let mut buffer = [0; GUARD + 8 + LARGEST + GUARD];
        self.fill(&mut buffer);
        let given = buffer;
        // SAFETY: the area has this length and is borrowed alone.
        let number = unsafe { calendar_text(ms, buffer[begin..end].as_mut_ptr(), length) };
        let apart = buffer[..begin] == given[..begin] && buffer[end..] == given[end..];
        Some((number, given[begin..end].to_vec(), buffer[begin..end].to_vec())).filter(|_| apart)
    }

    fn fill(&mut self, buffer: &mut [u8]) {
        for eight in buffer.chunks_mut(8) {
            eight.copy_from_slice(&self.random.next().to_le_bytes()[..eight.len()]);
        }
    }
}
