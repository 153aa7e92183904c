//! Makes random texts: mostly such that read, and such that meet the limits, repeated names and surrogates closely.

use crate::random::Random;
use std::collections::HashSet;

/// A random text.
pub fn text(random: &mut Random) -> Vec<u8> {
    let mut maker = Maker::new(random);
    match maker.random.below(100) {
        0..=32 => maker.ordinary(),
        33..=48 => maker.named(),
        49..=60 => maker.numbers(),
        61..=74 => maker.strings(),
        75..=80 => maker.nested(),
        81..=84 => maker.many_values(),
        85..=89 => maker.long(),
        _ => maker.loose_tokens(),
    }
    maker.out
}

/// What the names of one object have in common.
#[derive(Clone, Copy)]
enum Names {
    /// Of few letters: many are prefixes of others, and the empty one is among them.
    Short,
    Counted,
    /// Numbers in no order.
    Scattered,
    /// A long common part, then a number.
    LongPrefix,
    /// Hundreds of bytes that differ in one place.
    Long,
    /// Each departs from one long name at a later bit than the one before.
    Chain,
    /// The same with earlier bits.
    ChainBack,
    /// Differ in how often U+0000 stands in them, or behind it.
    Zeros,
    /// In twos that differ in the last bit.
    LastBit,
    Any,
}

#[rustfmt::skip]
const NAMES: [Names; 10] = [
    Names::Short, Names::Counted, Names::Scattered, Names::LongPrefix, Names::Long, Names::Chain, Names::ChainBack,
    Names::Zeros, Names::LastBit, Names::Any,
];

/// Characters at the ends of what UTF-8 writes with one, two, three and four bytes, and other ends.
#[rustfmt::skip]
const EDGES: [char; 22] = [
    '\0', '\u{1f}', ' ', '!', '"', '#', '/', '[', '\\', ']', '\u{7f}', '\u{80}', '\u{7ff}', '\u{800}', '\u{d7ff}',
    '\u{e000}', '\u{feff}', '\u{fffe}', '\u{ffff}', '\u{10000}', '\u{1ffff}', '\u{10ffff}',
];

/// Pieces of strings that are no characters: lone surrogates, broken escapes, ill-formed UTF-8, raw controls.
#[rustfmt::skip]
const BROKEN_PIECES: [&[u8]; 36] = [
    b"\\ud800", b"\\uDBFF", b"\\udc00", b"\\uDfFf", b"x\\uDC00", b"\\udffe", b"\\n\\uDD1E", b"\\ud83d\\ude00\\ude00",
    b"\\ud83d\\ud83d", b"\\ude00\\ud83d", b"\\ud83d\\u0041",
    b"\\ud83dx\\ude00", b"\\ud83d\\n", b"\\ud83d\\ude0", b"\\ud83d\\", b"\\uD83", b"\\u", b"\\u12", b"\\u00g0",
    b"\\U0041", b"\\x41", b"\\'", b"\\0", b"\x00", b"\x1f", b"\n", b"\xc0\x80", b"\xc3(", b"\xe0\x9f\xbf",
    b"\xed\xa0\x80", b"\xf0\x8f\xbf\xbf", b"\xf4\x90\x80\x80", b"\xf5\x80\x80\x80", b"\x80", b"\xe2\x82", b"\xff",
];

/// Numbers that are ill-formed, or not integers.
#[rustfmt::skip]
const ODD_NUMBERS: [&[u8]; 36] = [
    b"-a", b"- 1", b"-e5", b"-\"", b"-null", b"-[",
    b"01", b"-", b"-01", b"+1", b"--1", b"1.", b".5", b"-.5", b"1.e5", b"1e", b"1e+", b"1E-", b"1e5e5", b"1.5.5",
    b"0x10", b"1_0", b"-Infinity", b"NaN", b"1.5", b"0.0", b"-0.0", b"1e0", b"0E0", b"1.5e3", b"9007199254740991.0",
    b"1E400", b"-1e-400", b"0.00000000000000000001", b"12e3", b"1e00",
];

/// Texts to be filled up between their two parts, in a string or name, or with white space.
#[rustfmt::skip]
const LONG_TEXTS: [(&[u8], &[u8]); 12] = [
    (b"\"", b"\""), (b"\"", b"\""), (b"[\"", b"\"]"), (b"[\"", b"\"]"), (b"{\"", b"\":0}"), (b"{\"", b"\":0}"),
    (b"{\"a\":\"", b"\",\"b\":\"c\"}"), (b"[1,\"", b"\",1.5]"),
    (b"", b"1"), (b"[", b"]"), (b"[{},", b"\"z\"]"), (b"[\"\",", b"1.5]"),
];

const LONG_PIECES: [&[u8]; 8] =
    [b"x", b"z", b"\xc3\xa9", b"\xe2\x82\xac", b"\xf0\x9f\x98\x80", b"\\n", b"\\u00e9", b"\\ud83d\\ude00"];

/// Bytes after which an array or object gets no further item or member, so that few texts are over-long.
const ENOUGH: usize = 15_000;

const WORDS: [&[u8]; 3] = [b"null", b"true", b"false"];

#[rustfmt::skip]
const TOKENS: [&[u8]; 24] = [
    b"[", b"]", b"{", b"}", b",", b":", b"[]", b"{}", b"null", b"true", b"false", b"0", b"-1", b"12", b"\"\"",
    b"\"a\"", b"\"b\"", b"\"a\":", b"\"\\u0061\":", b" ", b"\n", b"1.5", b"nul", b"\"",
];

/// A name that departs from a row of o's at bit `at`, six bits a character.
fn chained(at: usize) -> String {
    let mut name = "o".repeat(at / 6);
    name.push(char::from(b'o' ^ 32 >> (at % 6)));
    name
}

struct Maker<'a> {
    random: &'a mut Random,
    out: Vec<u8>,
    /// The number of values written.
    values: usize,
    /// Percent of gaps with white space.
    spaced: usize,
    /// Percent of characters that are escaped without need.
    escaped: usize,
    /// Percent of characters that are no plain ASCII.
    foreign: usize,
    /// Percent of objects in which a name is said again.
    repeated: usize,
}

impl<'a> Maker<'a> {
    fn new(random: &'a mut Random) -> Maker<'a> {
        let spaced = random.pick(&[0, 0, 5, 30, 90]);
        let escaped = random.pick(&[0, 0, 2, 20, 100]);
        let foreign = random.pick(&[0, 5, 50, 100]);
        Maker { random, out: Vec::new(), values: 0, spaced, escaped, foreign, repeated: 1 }
    }

    // ---- pieces

    fn put(&mut self, bytes: &[u8]) {
        self.out.extend_from_slice(bytes);
    }

    fn gap(&mut self) {
        if self.random.chance(self.spaced) {
            for _ in 0..self.random.pick(&[1, 1, 1, 2, 3, 17]) {
                let space = self.random.pick(b" \t\n\r");
                self.out.push(space);
            }
        }
    }

    fn character(&mut self) -> char {
        if !self.random.chance(self.foreign) {
            return self.random.pick(b"abcdefghijklmnopqrstuvwxyzABC0189 _-./:#,{}[]'") as char;
        }
        let within = |random: &mut Random, first: u32, last: u32| {
            char::from_u32(random.between(first as usize, last as usize) as u32).unwrap_or('\u{fffd}')
        };
        match self.random.below(6) {
            0 => within(self.random, 0x00, 0x7f),
            1 => within(self.random, 0x80, 0x7ff),
            2 => within(self.random, 0x800, 0xffff),
            3 => within(self.random, 0x1_0000, 0x10_ffff),
            _ => self.random.pick(&EDGES),
        }
    }

    fn characters(&mut self) -> String {
        let length = self.random.pick(&[0, 1, 2, 3, 5, 8, 13, 40]);
        (0..self.random.between(0, length)).map(|_| self.character()).collect()
    }

    /// Writes a name or string, with escapes where they are needed and sometimes where not.
    fn string(&mut self, content: &str) {
        self.out.push(b'"');
        for character in content.chars() {
            self.spell(character);
        }
        self.out.push(b'"');
    }

    fn spell(&mut self, character: char) {
        let needed = matches!(character, '\0'..='\u{1f}' | '"' | '\\');
        if !needed && !self.random.chance(self.escaped) {
            let mut bytes = [0; 4];
            let raw = character.encode_utf8(&mut bytes).len();
            return self.put(&bytes[..raw]);
        }
        let short = match character {
            '"' | '\\' | '/' => Some(character as u8),
            '\u{8}' => Some(b'b'),
            '\t' => Some(b't'),
            '\n' => Some(b'n'),
            '\u{c}' => Some(b'f'),
            '\r' => Some(b'r'),
            _ => None,
        };
        match short {
            Some(letter) if self.random.chance(60) => self.put(&[b'\\', letter]),
            _ => {
                for &unit in character.encode_utf16(&mut [0; 2]).iter() {
                    self.unit(unit);
                }
            }
        }
    }

    /// Writes \uXXXX, each digit in either case.
    fn unit(&mut self, unit: u16) {
        self.put(b"\\u");
        for shift in [12, 8, 4, 0] {
            let digits = self.random.pick(&[b"0123456789abcdef", b"0123456789ABCDEF"]);
            self.out.push(digits[usize::from(unit >> shift & 15)]);
        }
    }

    fn integer(&mut self) -> String {
        let sign = if self.random.chance(30) { "-" } else { "" };
        let magnitude = match self.random.below(8) {
            0 => 0,
            1 => 9_007_199_254_740_991 - self.random.below(3) as u64,
            2 => 10_u64.pow(self.random.below(16) as u32),
            3 => self.random.next() >> self.random.between(11, 63),
            _ => self.random.below(1000) as u64,
        };
        format!("{}{}", sign, magnitude)
    }

    fn scalar(&mut self) {
        self.values += 1;
        match self.random.below(4) {
            0 => {
                let word = self.random.pick(&WORDS);
                self.put(word);
            }
            1 => {
                let content = self.characters();
                self.string(&content);
            }
            _ => {
                let integer = self.integer();
                self.put(integer.as_bytes());
            }
        }
    }

    fn array(&mut self, items: usize, mut item: impl FnMut(&mut Self, usize)) {
        self.values += 1;
        self.out.push(b'[');
        self.gap();
        for at in 0..items {
            if self.out.len() > ENOUGH {
                break;
            }
            if at > 0 {
                self.out.push(b',');
                self.gap();
            }
            item(self, at);
            self.gap();
        }
        self.out.push(b']');
    }

    fn object(&mut self, members: usize, names: Names, mut content: impl FnMut(&mut Self, usize)) {
        self.values += 1;
        let mut used = HashSet::new();
        let mut order = Vec::new();
        let again = if self.random.chance(self.repeated) { self.random.below(members.max(1)) } else { members };
        self.out.push(b'{');
        self.gap();
        for at in 0..members {
            if self.out.len() > ENOUGH {
                break;
            }
            if at > 0 {
                self.out.push(b',');
                self.gap();
            }
            let mut name = self.name(names, at);
            while !used.insert(name.clone()) {
                name = self.name(Names::Any, at);
                name.push('~');
                name += &at.to_string();
            }
            if at == again && at > 0 {
                let earlier: &String = &order[self.random.below(at)];
                name = earlier.clone();
            }
            self.string(&name);
            order.push(name);
            self.gap();
            self.out.push(b':');
            self.gap();
            content(self, at);
            self.gap();
        }
        self.out.push(b'}');
    }

    fn name(&mut self, names: Names, at: usize) -> String {
        match names {
            Names::Short => (0..self.random.below(6)).map(|_| self.random.pick(&['a', 'b'])).collect(),
            Names::Counted => at.to_string(),
            Names::Scattered => (at * 7919 % 10_007).to_string(),
            Names::LongPrefix => format!("{}{}", "common/part/".repeat(1 + at % 2 * 8), at),
            Names::Long => {
                let place = at * 37 % 300;
                format!("{}j{}", "k".repeat(place), "k".repeat(299 - place))
            }
            Names::Chain => chained(at),
            Names::ChainBack => chained(500_usize.saturating_sub(at)),
            Names::Zeros => {
                let number = if at < 4 { String::new() } else { (at / 4).to_string() };
                format!("a{}{}", "\0".repeat(at % 4), number)
            }
            Names::LastBit => format!("name-{:03}{}", at / 2, if at % 2 == 0 { 'p' } else { 'q' }),
            Names::Any => self.characters(),
        }
    }

    // ---- texts

    fn ordinary(&mut self) {
        let mut left = self.random.pick(&[1, 4, 8, 15, 30, 60, 300]);
        let depth = self.random.pick(&[1, 2, 4, 8, 31]);
        self.gap();
        self.value(depth, &mut left);
        self.gap();
    }

    /// Writes a value of at most about `left` values.
    fn value(&mut self, depth: usize, left: &mut usize) {
        *left = left.saturating_sub(1);
        if depth == 0 || *left == 0 || self.random.chance(30) {
            return self.scalar();
        }
        let count = self.random.between(0, (*left).min(9));
        if self.random.chance(50) {
            self.array(count, |maker, _| maker.value(depth - 1, left));
        } else {
            let names = self.random.pick(&NAMES);
            self.object(count, names, |maker, _| maker.value(depth - 1, left));
        }
    }

    /// Objects within objects, with names that are alike, some of them repeated.
    fn named(&mut self) {
        self.repeated = self.random.pick(&[0, 0, 30, 100]);
        let members = if self.random.chance(10) { self.random.between(150, 500) } else { self.random.between(1, 24) };
        self.gap();
        self.names_within(members, 3);
        self.gap();
    }

    fn names_within(&mut self, members: usize, depth: usize) {
        let names = self.random.pick(&NAMES);
        self.object(members, names, |maker, _| {
            let inner = maker.random.below(6);
            match maker.random.below(10) {
                0..=1 if depth > 0 => maker.names_within(inner, depth - 1),
                2 if depth > 0 => maker.array(inner % 3, |maker, _| maker.names_within(inner, depth - 1)),
                _ => maker.scalar(),
            }
        });
    }

    /// Numbers, most of them near the limit or no integers.
    fn numbers(&mut self) {
        let count = self.random.between(1, 6);
        let odd = self.random.pick(&[0, 15, 50, 90]);
        match self.random.below(3) {
            0 => self.number(odd),
            1 => self.array(count, |maker, _| maker.number(odd)),
            _ => self.object(count, Names::Counted, |maker, _| maker.number(odd)),
        }
    }

    fn number(&mut self, odd: usize) {
        self.values += 1;
        if !self.random.chance(odd) {
            let integer = self.integer();
            return self.put(integer.as_bytes());
        }
        if self.random.chance(55) {
            let number = self.random.pick(&ODD_NUMBERS);
            return self.put(number);
        }
        if self.random.chance(40) {
            self.out.push(b'-');
        }
        let limit: u128 = 9_007_199_254_740_991;
        let digits = match self.random.below(4) {
            0 => (limit + 1 + self.random.below(9) as u128).to_string(),
            1 => (limit - self.random.below(3) as u128).to_string() + &self.random.below(10).to_string(),
            2 => (0..self.random.between(14, 24))
                .map(|at| if at == 0 { '9' } else { (b'0' + (self.random.below(10) as u8)) as char })
                .collect(),
            _ => (10_u128.pow(self.random.between(14, 20) as u32) + self.random.below(10) as u128).to_string(),
        };
        self.put(digits.as_bytes());
        if self.random.chance(20) {
            let tail: &[u8] = self.random.pick(&[b".5", b"e1", b"E+", b".", b"e"]);
            self.put(tail);
        }
    }

    /// Strings of all that may and may not stand in one, as values and names.
    fn strings(&mut self) {
        let broken = self.random.pick(&[0, 0, 3, 15, 50]);
        let count = self.random.between(1, 4);
        match self.random.below(3) {
            0 => self.pieces(broken),
            1 => self.array(count, |maker, _| maker.pieces(broken)),
            _ => {
                self.values += 1;
                self.out.push(b'{');
                for at in 0..count {
                    if at > 0 {
                        self.out.push(b',');
                    }
                    self.pieces(broken);
                    self.values -= 1;
                    self.out.push(b':');
                    self.scalar();
                }
                self.out.push(b'}');
            }
        }
    }

    fn pieces(&mut self, broken: usize) {
        self.values += 1;
        self.out.push(b'"');
        for _ in 0..self.random.between(0, 8) {
            if self.random.chance(broken) {
                let piece = self.random.pick(&BROKEN_PIECES);
                self.put(piece);
            } else if self.random.chance(15) {
                let run = self.random.below(70);
                self.put(&[b'x'; 70][..run]);
            } else if self.random.chance(20) {
                let high = self.random.between(0xd800, 0xdbff) as u16;
                let low = self.random.between(0xdc00, 0xdfff) as u16;
                self.unit(high);
                self.unit(low);
            } else {
                let character = self.character();
                self.spell(character);
            }
        }
        self.out.push(b'"');
    }

    /// Arrays and objects about 32 deep, some more than once.
    fn nested(&mut self) {
        let most = self.random.pick(&[31, 32, 32, 32, 33, 33, 34, 40]);
        let mut open = Vec::new();
        for _ in 0..self.random.between(1, 3) {
            while open.len() < most {
                if self.random.chance(50) {
                    self.put(b"[");
                    open.push(b']');
                    if self.random.chance(20) {
                        self.gap();
                        self.scalar();
                        self.gap();
                        self.put(b",");
                    }
                } else {
                    self.put(b"{");
                    self.gap();
                    self.string("a");
                    self.gap();
                    self.put(b":");
                    open.push(b'}');
                }
                self.values += 1;
                self.gap();
            }
            let ends_empty = self.random.chance(50) && self.out.last() == Some(&b'[');
            if !ends_empty {
                self.scalar();
            }
            for _ in 0..self.random.between(1, open.len() - 1) {
                self.out.extend(open.pop());
            }
            if open.last() == Some(&b']') {
                self.put(b",");
            } else {
                let name = format!("b{}", self.values);
                self.put(b",");
                self.string(&name);
                self.put(b":");
            }
        }
        self.scalar();
        while let Some(closing) = open.pop() {
            self.gap();
            self.out.push(closing);
        }
    }

    /// About 1,024 values.
    fn many_values(&mut self) {
        self.spaced = self.spaced.min(5);
        self.escaped = self.escaped.min(2);
        let total = self.random.pick(&[1000, 1023, 1024, 1024, 1024, 1024, 1025, 1025, 1025, 1030]);
        let grouped = self.random.pick(&[0, 2, 20]);
        let names = self.random.pick(&[None, Some(Names::Counted), Some(Names::Scattered), Some(Names::LastBit)]);
        if self.random.chance(50) {
            self.array(1, |maker, _| maker.fill_to(total, grouped, names));
        } else {
            self.object(1, Names::Counted, |maker, _| maker.fill_to(total, grouped, names));
        }
    }

    /// Writes an array, or an object with such names, with which the text has `total` values.
    fn fill_to(&mut self, total: usize, grouped: usize, names: Option<Names>) {
        self.values += 1;
        self.put(if names.is_some() { b"{" } else { b"[" });
        let again = if self.random.chance(15) { self.random.below(total) } else { total };
        let mut at = 0;
        while self.values < total {
            if at > 0 {
                self.put(b",");
                self.gap();
            }
            if let Some(names) = names {
                let number = if at == again { self.random.below(at + 1) } else { at };
                let name = self.name(names, number);
                self.string(&name);
                self.put(b":");
            }
            let inner = self.random.below(6).min(total - self.values - 1);
            if self.random.chance(grouped) {
                self.array(inner, |maker, _| maker.brief());
            } else {
                self.brief();
            }
            at += 1;
        }
        self.put(if names.is_some() { b"}" } else { b"]" });
    }

    /// A value of few bytes.
    fn brief(&mut self) {
        self.values += 1;
        let value: &[u8] = self.random.pick(&[b"0", b"7", b"-1", b"null", b"true", b"\"\"", b"\"x\"", b"[]", b"{}"]);
        self.put(value);
    }

    /// About 16,384 bytes: most of them in one string or name, or white space.
    fn long(&mut self) {
        let total = self.random.pick(&[16_000, 16_200, 16_300, 16_383, 16_384, 16_384, 16_384, 16_384, 16_385, 16_386]);
        let (before, after) = self.random.pick(&LONG_TEXTS);
        let in_string = before.ends_with(b"\"");
        self.put(before);
        if in_string {
            let piece = self.random.pick(&LONG_PIECES);
            let until = if self.random.chance(50) { total } else { self.random.below(total) };
            while self.out.len() + piece.len() + after.len() <= until {
                self.put(piece);
            }
        }
        let fill: &[u8] = if in_string { b"xyz" } else { b" \t\n\r" };
        while self.out.len() + after.len() < total {
            let byte = self.random.pick(fill);
            self.out.push(byte);
        }
        self.put(after);
    }

    /// Tokens one after the other, most of them such that may follow.
    fn loose_tokens(&mut self) {
        let stray = self.random.pick(&[2, 10, 30]);
        let mut open: Vec<u8> = Vec::new();
        let mut value_ended = false;
        for _ in 0..self.random.between(1, 24) {
            self.gap();
            if self.random.chance(stray) {
                let token = self.random.pick(&TOKENS);
                self.put(token);
            } else if value_ended {
                match open.last() {
                    Some(b']') if self.random.chance(70) => {
                        self.put(b",");
                        value_ended = false;
                    }
                    Some(b'}') if self.random.chance(70) => {
                        self.put(b",");
                        let name = self.random.pick(&["a", "b", "c", "d", "e", "f", "g", "h"]);
                        self.string(name);
                        self.put(b":");
                        value_ended = false;
                    }
                    Some(_) => self.out.extend(open.pop()),
                    None => break,
                }
            } else {
                value_ended = match self.random.below(4) {
                    0 => {
                        self.put(b"[");
                        open.push(b']');
                        self.random.chance(10)
                    }
                    1 => {
                        self.put(b"{\"a\":");
                        open.push(b'}');
                        false
                    }
                    _ => {
                        self.scalar();
                        true
                    }
                };
            }
        }
        while let Some(closing) = open.pop() {
            if self.random.chance(95) {
                self.out.push(closing);
            }
        }
    }
}
