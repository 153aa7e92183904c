//! Calls a writer on areas at any address, with noise in the output and around all, and holds refusal, size and every
//! byte of the output to what is expected.

use crate::areas::Areas;
use crate::cases::Case;
use crate::random::Random;
use harness::lend::told;

/// Writes the value of a cell as the C entry `writer_write` does.
pub trait Writer {
    fn write(&mut self, areas: Areas, cell: u64, output: &mut [u8], size: &mut u64) -> u32;
}

const GUARD: usize = 32; // bytes before and behind each area that nothing may touch
const NOISES: usize = 1_024; // different noises

/// Bytes with others around them.
struct Area {
    bytes: Vec<u8>,
    begin: usize,
    length: usize,
}

impl Area {
    fn new() -> Area {
        Area { bytes: Vec::new(), begin: 0, length: 0 }
    }

    /// Lends so many bytes of noise, with noise around them, at an address that the shift moves.
    fn lend(&mut self, length: usize, shift: usize, noise: &[u8]) {
        self.begin = GUARD + shift;
        self.length = length;
        let all = self.begin + length + GUARD;
        self.bytes.clear();
        while self.bytes.len() < all {
            let more = noise.len().min(all - self.bytes.len());
            self.bytes.extend_from_slice(&noise[..more]);
        }
    }

    /// Lends a copy of these bytes.
    fn lend_copy(&mut self, content: &[u8], shift: usize, noise: &[u8]) {
        self.lend(content.len(), shift, noise);
        self.content_mut().copy_from_slice(content);
    }

    fn content(&self) -> &[u8] {
        &self.bytes[self.begin..self.begin + self.length]
    }

    fn content_mut(&mut self) -> &mut [u8] {
        &mut self.bytes[self.begin..self.begin + self.length]
    }

    /// What stands around the content is the noise that it was.
    fn guards_kept(&self, noise: &[u8]) -> bool {
        let kept =
            |range: std::ops::Range<usize>| range.into_iter().all(|at| self.bytes[at] == noise[at % noise.len()]);
        kept(0..self.begin) && kept(self.begin + self.length..self.bytes.len())
    }
}

pub struct Comparer {
    random: Random,
    noise: Vec<u8>,
    inputs: [Area; 4],
    output: Area,
}

impl Comparer {
    pub fn new() -> Comparer {
        let mut random = Random::new(0);
        // No zero, so that a byte that should have been cleared is always seen.
        let noise = (0..NOISES + 4_096).map(|_| random.between(1, 255) as u8).collect();
        Comparer { random, noise, inputs: [(); 4].map(|_| Area::new()), output: Area::new() }
    }

    /// Calls the writer on a case; says what differs from what is expected, if anything does.
    pub fn compare(&mut self, case: &Case, writer: &mut dyn Writer) -> Option<String> {
        let from = self.random.below(NOISES);
        let noise = &self.noise[from..from + 4_096];
        let given = [&case.lent.rule, &case.lent.strings, &case.lent.table, &case.lent.cells];
        for (area, given) in self.inputs.iter_mut().zip(given) {
            area.lend_copy(given, self.random.below(8), noise);
        }
        self.output.lend(case.room, self.random.below(8), noise);
        let kept = self.random.next();
        let mut sizes = [kept, !kept, kept];
        let [rule, strings, table, cells] = [0, 1, 2, 3].map(|at| self.inputs[at].content());
        let areas = Areas { rule, strings, table, cells };
        let refusal = writer.write(areas, case.lent.cell, self.output.content_mut(), &mut sizes[1]);

        let (wanted, text) = match &case.expected {
            Ok(text) => (0, &text[..]),
            Err(refusal) => (*refusal, &[][..]),
        };
        let output = self.output.content();
        if (refusal, sizes[1]) != (wanted, text.len() as u64) {
            let said = format!("refusal {} size {}, expected {} and {}", refusal, sizes[1], wanted, text.len());
            return Some(format!("{}; the output begins {}", said, told(output, 0)));
        }
        let cleared = output[text.len()..].iter().all(|&byte| byte == 0);
        if &output[..text.len()] != text || !cleared {
            let expected = text.iter().copied().chain(std::iter::repeat(0));
            let at = output.iter().zip(expected).position(|(&byte, wanted)| byte != wanted).unwrap_or(0);
            return Some(format!("from byte {} on: {}, expected {}", at, told(output, at), told(text, at)));
        }
        if sizes[0] != kept || sizes[2] != kept {
            return Some("what stands beside the size was touched".to_string());
        }
        let unchanged = self.inputs.iter().zip(given).all(|(area, given)| area.content() == &given[..]);
        if !unchanged || !self.inputs.iter().chain([&self.output]).all(|area| area.guards_kept(noise)) {
            return Some("more than the output and the size was touched".to_string());
        }
        None
    }
}

impl Default for Comparer {
    fn default() -> Comparer {
        Comparer::new()
    }
}
