//! Calls an entry on texts and areas at any address, with noise in the areas and around all, and holds refusal, numbers
//! and every byte to what is expected.

use crate::random::Random;

const GUARD: usize = 32; // bytes before and behind each area that nothing may touch
const LARGEST: usize = 131_072; // bytes of a text or an area, with what stands around it
const NOISES: usize = 4_096; // different noises
const MOST: usize = 16; // texts and areas of one call
const TOLD: usize = 24; // bytes of an area that are told

/// What stands behind a text, and would go on with it.
const BEHIND: [&[u8; 8]; 7] =
    [b"\"]}]}]}]", b"        ", b"00000000", b",1]}\"]}]", b"\\u0041\"]", b"ull,rue\"", b"\xbf\xbf\xbf\"\"\"]}"];

/// How the areas of one call are lent: their lengths, where they begin, and what they hold.
#[derive(Clone, Debug)]
pub struct Lent {
    pub lengths: Vec<usize>,
    /// Of texts and areas, past an address that is a multiple of 16.
    shifts: [usize; MOST],
    noise: usize,
    /// What the numbers are before.
    number: u64,
    behind: &'static [u8; 8],
}

impl Lent {
    /// Lends areas of these lengths.
    pub fn sized(random: &mut Random, lengths: Vec<usize>) -> Lent {
        let mut shifts = [0; MOST];
        if random.chance(50) {
            shifts = shifts.map(|_| random.below(16));
        }
        let behind = random.pick(&BEHIND);
        Lent { lengths, shifts, noise: random.below(NOISES), number: random.next() | 1, behind }
    }

    /// Work areas that are most often as long as stated, sometimes longer, rarely too short; then those of any length.
    pub fn new(random: &mut Random, stated: &[usize], others: &[usize]) -> Lent {
        let mut lengths = stated.to_vec();
        let odd = |random: &mut Random, stated: usize| match random.below(9) {
            0..=1 => stated - 1,
            2 => random.below(stated),
            3 => random.pick(&[0, 1, 8, 16, stated - 8, stated - 16]),
            4 => stated + 1,
            _ => stated + random.below(4_096),
        };
        match random.below(18) {
            0..=1 => {
                let at = random.below(lengths.len());
                lengths[at] = odd(random, lengths[at]);
            }
            2 => lengths.iter_mut().for_each(|length| *length += random.below(300)),
            3 if random.chance(70) => lengths.iter_mut().for_each(|length| *length = odd(random, *length)),
            _ => {}
        }
        lengths.extend(others);
        Lent::sized(random, lengths)
    }

    /// A work area is longer than stated.
    pub fn is_longer(&self, stated: &[usize]) -> bool {
        self.lengths.iter().zip(stated).any(|(length, stated)| length > stated)
    }

    /// The work areas that are too short.
    pub fn short<'a>(&'a self, stated: &'a [usize]) -> impl Iterator<Item = usize> + 'a {
        (0..stated.len()).filter(move |&at| self.lengths[at] < stated[at])
    }
}

/// An area with its guards, in a buffer that begins at a multiple of 16.
struct Area {
    buffer: Vec<u128>,
    begin: usize,
    length: usize,
}

impl Area {
    fn new() -> Area {
        Area { buffer: vec![0; LARGEST / 16], begin: 0, length: 0 }
    }

    fn bytes(&self) -> &[u8] {
        // SAFETY: the buffer's bytes, all of them set.
        unsafe { std::slice::from_raw_parts(self.buffer.as_ptr().cast(), LARGEST) }
    }

    fn bytes_mut(&mut self) -> &mut [u8] {
        // SAFETY: as above, and borrowed alone.
        unsafe { std::slice::from_raw_parts_mut(self.buffer.as_mut_ptr().cast(), LARGEST) }
    }

    /// Lends so many bytes, noise in them and in the guards.
    fn lend(&mut self, length: usize, shift: usize, noise: &[u8]) {
        self.begin = GUARD + shift;
        self.length = length;
        let all = self.begin + length + GUARD;
        self.bytes_mut()[..all].copy_from_slice(&noise[..all]);
    }

    /// Lends a text, with bytes behind it that would go on with it.
    fn lend_text(&mut self, text: &[u8], behind: &[u8], shift: usize, noise: &[u8]) {
        self.lend(text.len(), shift, noise);
        let end = self.begin + text.len();
        self.content_mut().copy_from_slice(text);
        self.bytes_mut()[end..end + behind.len()].copy_from_slice(behind);
    }

    fn content(&self) -> &[u8] {
        &self.bytes()[self.begin..self.begin + self.length]
    }

    fn content_mut(&mut self) -> &mut [u8] {
        let (begin, end) = (self.begin, self.begin + self.length);
        &mut self.bytes_mut()[begin..end]
    }

    /// The guards hold what they held: these bytes behind the content, and noise.
    fn guards_kept(&self, behind: &[u8], noise: &[u8]) -> bool {
        let from = self.begin + self.length;
        let (middle, to) = (from + behind.len(), from + GUARD);
        self.bytes()[..self.begin] == noise[..self.begin]
            && self.bytes()[from..middle] == *behind
            && self.bytes()[middle..to] == noise[middle..to]
    }
}

/// What an entry's areas and numbers are called.
pub struct Names<'a> {
    pub areas: &'a [&'static str],
    pub numbers: &'a [&'static str],
}

/// What is to come of a call.
pub struct Expected<'a> {
    /// After 1 nothing is touched, whatever stands below.
    pub refusal: u32,
    pub numbers: Vec<u64>,
    /// What each area begins with; zeros follow.
    pub fronts: Vec<&'a [u8]>,
}

/// Refusal 1.
pub const UNTOUCHED: u32 = 1;

/// Calls an entry on texts, areas and numbers.
pub type Call<'a> = dyn FnMut(Vec<&[u8]>, Vec<&mut [u8]>, Vec<&mut u64>) -> u32 + 'a;

pub struct Comparer {
    noise: Vec<u8>,
    zeros: Vec<u8>,
    texts: Vec<Area>,
    areas: Vec<Area>,
    /// What the last call answered, and left in the numbers.
    refusal: u32,
    numbers: Vec<u64>,
}

impl Comparer {
    pub fn new() -> Comparer {
        let mut random = Random::new(0);
        // No zero, so that a byte that should have been cleared is always seen.
        let noise = (0..NOISES + LARGEST).map(|_| random.between(1, 255) as u8).collect();
        let (texts, areas, numbers) = (Vec::new(), Vec::new(), Vec::new());
        Comparer { noise, zeros: vec![0; LARGEST], texts, areas, refusal: 0, numbers }
    }

    pub fn refusal(&self) -> u32 {
        self.refusal
    }

    /// A number that the last call left.
    pub fn number(&self, at: usize) -> u64 {
        self.numbers[at]
    }

    /// What the last call left in an area.
    pub fn area(&self, at: usize) -> &[u8] {
        self.areas[at].content()
    }

    /// Makes a call; says what differs from what is expected, if anything does.
    pub fn compare(
        &mut self,
        texts: &[&[u8]],
        lent: &Lent,
        expected: &Expected,
        names: &Names,
        call: &mut Call,
    ) -> Option<String> {
        self.lend(texts, lent);
        let count = names.numbers.len();
        let mut lined = vec![lent.number; 2 * count + 1]; // each between two that nothing may touch
        let given = self.texts[..texts.len()].iter().map(Area::content).collect();
        let areas = self.areas[..lent.lengths.len()].iter_mut().map(Area::content_mut).collect();
        self.refusal = call(given, areas, lined.iter_mut().skip(1).step_by(2).collect());
        self.numbers = lined.iter().skip(1).step_by(2).copied().collect();

        let noise = &self.noise[lent.noise..];
        self.judge(lent, expected, names).or_else(|| {
            let between = lined.iter().step_by(2).all(|&number| number == lent.number);
            let lent_texts = &self.texts[..texts.len()];
            let kept = self.areas[..lent.lengths.len()].iter().all(|area| area.guards_kept(&[], noise))
                && lent_texts.iter().all(|area| area.guards_kept(lent.behind, noise));
            let read = lent_texts.iter().zip(texts).all(|(area, text)| area.content() == *text);
            Some("more than the areas and the numbers was touched".to_string()).filter(|_| !(between && kept && read))
        })
    }

    fn lend(&mut self, texts: &[&[u8]], lent: &Lent) {
        let noise = &self.noise[lent.noise..];
        self.texts.resize_with(self.texts.len().max(texts.len()), Area::new);
        self.areas.resize_with(self.areas.len().max(lent.lengths.len()), Area::new);
        let mut shifts = lent.shifts.iter();
        for (area, text) in self.texts.iter_mut().zip(texts) {
            area.lend_text(text, lent.behind, *shifts.next().unwrap(), noise);
        }
        for (area, &length) in self.areas.iter_mut().zip(&lent.lengths) {
            area.lend(length, *shifts.next().unwrap(), noise);
        }
    }

    /// What was answered and left behind, held to what is expected.
    fn judge(&self, lent: &Lent, expected: &Expected, names: &Names) -> Option<String> {
        let untouched = expected.refusal == UNTOUCHED;
        let numbers = if untouched { vec![lent.number; names.numbers.len()] } else { expected.numbers.clone() };
        if (self.refusal, &self.numbers) != (expected.refusal, &numbers) {
            let tell = |refusal: u32, numbers: &[u64]| {
                let told = names.numbers.iter().zip(numbers).map(|(name, number)| format!(" {} {}", name, number));
                format!("refusal {}{}", refusal, told.collect::<String>())
            };
            let last = lent.lengths.len() - 1;
            let given = tell(self.refusal, &self.numbers);
            let wanted = tell(expected.refusal, &numbers);
            let (name, begin) = (names.areas[last], told(self.area(last), 0));
            return Some(format!("{}, expected {}; {} begins {}", given, wanted, name, begin));
        }
        let noise = &self.noise[lent.noise..];
        for (at, name) in names.areas.iter().enumerate() {
            let area = &self.areas[at];
            let content = area.content();
            let (front, rest) = match untouched {
                true => (&noise[area.begin..area.begin + area.length], &[][..]),
                false => (expected.fronts[at], &self.zeros[expected.fronts[at].len()..content.len()]),
            };
            let (begin, end) = content.split_at(front.len());
            if begin != front || end != rest {
                let expected = front.iter().chain(rest);
                let at = content.iter().zip(expected).position(|(byte, wanted)| byte != wanted).unwrap_or(0);
                let wanted = if at < front.len() { told(front, at) } else { "zeros".to_string() };
                return Some(format!("{}, from byte {} on: {}, expected {}", name, at, told(content, at), wanted));
            }
        }
        None
    }
}

impl Default for Comparer {
    fn default() -> Comparer {
        Comparer::new()
    }
}

/// Some bytes from a place on, in printable ASCII.
pub fn told(bytes: &[u8], at: usize) -> String {
    let rest = &bytes[at.min(bytes.len())..];
    let some = &rest[..rest.len().min(TOLD)];
    let escaped: String = some.iter().flat_map(|&byte| std::ascii::escape_default(byte)).map(char::from).collect();
    format!("b\"{}\"{}", escaped, if some.len() < rest.len() { ".." } else { "" })
}
