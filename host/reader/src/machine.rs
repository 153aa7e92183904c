//! RFC 8259's grammar as a state machine that takes one byte at a time and knows no limit but memory.
//!
//! As long as it takes bytes, what it has taken begins some RFC 8259 text, so the byte that it does not take is the
//! place of refusal 2. UTF-8 is left to the standard library: `scan` gives the machine only the bytes up to the first
//! that breaks UTF-8.

use crate::{Fault, Why};
use std::str;

#[derive(Clone, Copy, Debug, PartialEq, Eq)]
pub enum Sort {
    Null,
    False,
    True,
    Number,
    Name,
    Text,
    Array,
    Object,
    /// A closing bracket.
    Close,
}

/// A token, or what stands of it where the text stops: the bytes from `begin` to before `end`. An array or object is
/// its opening bracket here.
#[derive(Clone, Copy, Debug, PartialEq, Eq)]
pub struct Token {
    pub sort: Sort,
    pub begin: usize,
    pub end: usize,
    /// Of a name or string: the closing quote is there.
    pub closed: bool,
}

impl Token {
    pub fn is_value(&self) -> bool {
        self.sort != Sort::Name && self.sort != Sort::Close
    }
}

/// What the next byte is taken as.
#[derive(Clone, Copy)]
enum State {
    Value,
    ItemOrEnd,
    NameOrEnd,
    Name,
    Colon,
    AfterValue,
    /// Inside null, false or true: the bytes to come.
    Word(&'static [u8]),
    Minus,
    Zero,
    Digits,
    Point,
    Fraction,
    Mark,
    Sign,
    Exponent,
    String,
    Escape,
    /// Inside \uXXXX: how many digits are to come.
    Hex(u8),
}

struct Machine {
    state: State,
    /// The arrays and objects that are open, outermost first.
    open: Vec<Sort>,
    tokens: Vec<Token>,
}

impl Machine {
    fn take(&mut self, at: usize, byte: u8) -> Result<(), Why> {
        use State::*;
        let inside_token = match self.state {
            Value | ItemOrEnd | NameOrEnd | Name | Colon | AfterValue => false,
            Zero | Digits | Fraction | Exponent => self.goes_on_number(byte),
            Word(_) | Minus | Point | Mark | Sign | String | Escape | Hex(_) => true,
        };
        if inside_token {
            self.state = self.inside(byte)?;
            self.tokens.last_mut().unwrap().end = at + 1;
        } else if !matches!(byte, b' ' | b'\t' | b'\n' | b'\r') {
            self.state = self.between(at, byte)?;
        }
        Ok(())
    }

    /// Whether a number that could end here takes this byte. If not, its value has ended.
    fn goes_on_number(&mut self, byte: u8) -> bool {
        let goes_on = match self.state {
            State::Zero => matches!(byte, b'.' | b'e' | b'E'),
            State::Digits => matches!(byte, b'0'..=b'9' | b'.' | b'e' | b'E'),
            State::Fraction => matches!(byte, b'0'..=b'9' | b'e' | b'E'),
            _ => byte.is_ascii_digit(),
        };
        if !goes_on {
            self.state = State::AfterValue;
        }
        goes_on
    }

    /// The state after a further byte of a word, a number or a string.
    fn inside(&mut self, byte: u8) -> Result<State, Why> {
        match (self.state, byte) {
            (State::Word([last]), _) if byte == *last => Ok(State::AfterValue),
            (State::Word([next, rest @ ..]), _) if byte == *next => Ok(State::Word(rest)),
            (State::Word(_), _) => Err(Why::BrokenWord),

            (State::Minus, b'0') => Ok(State::Zero),
            (State::Minus, b'1'..=b'9') | (State::Digits, b'0'..=b'9') => Ok(State::Digits),
            (State::Zero | State::Digits, b'.') => Ok(State::Point),
            (State::Point | State::Fraction, b'0'..=b'9') => Ok(State::Fraction),
            (State::Zero | State::Digits | State::Fraction, b'e' | b'E') => Ok(State::Mark),
            (State::Mark, b'+' | b'-') => Ok(State::Sign),
            (State::Mark | State::Sign | State::Exponent, b'0'..=b'9') => Ok(State::Exponent),

            (State::String, b'"') => {
                let token = self.tokens.last_mut().unwrap();
                token.closed = true;
                Ok(if token.sort == Sort::Name { State::Colon } else { State::AfterValue })
            }
            (State::String, b'\\') => Ok(State::Escape),
            (State::String, 0x00..=0x1f) => Err(Why::RawControl),
            (State::String, _) => Ok(State::String),
            (State::Escape, b'"' | b'\\' | b'/' | b'b' | b'f' | b'n' | b'r' | b't') => Ok(State::String),
            (State::Escape, b'u') => Ok(State::Hex(4)),
            (State::Escape, _) => Err(Why::NoEscape),
            (State::Hex(left), _) if byte.is_ascii_hexdigit() => {
                Ok(if left == 1 { State::String } else { State::Hex(left - 1) })
            }
            (State::Hex(_), _) => Err(Why::NoHexDigit),
            _ => Err(Why::BrokenNumber),
        }
    }

    /// The state after a byte that is no white space and stands between tokens.
    fn between(&mut self, at: usize, byte: u8) -> Result<State, Why> {
        match (self.state, byte, self.open.last()) {
            (State::Name | State::NameOrEnd, b'"', _) => Ok(self.begin(Sort::Name, at, State::String)),
            (State::Colon, b':', _) => Ok(State::Value),
            (State::AfterValue, b',', Some(Sort::Array)) => Ok(State::Value),
            (State::AfterValue, b',', Some(Sort::Object)) => Ok(State::Name),
            (State::AfterValue | State::ItemOrEnd, b']', Some(Sort::Array))
            | (State::AfterValue | State::NameOrEnd, b'}', Some(Sort::Object)) => {
                self.open.pop();
                Ok(self.begin(Sort::Close, at, State::AfterValue))
            }
            (State::AfterValue, _, None) => Err(Why::MoreAfterValue),
            (State::Value | State::ItemOrEnd, _, _) => match byte {
                b'n' => Ok(self.begin(Sort::Null, at, State::Word(b"ull"))),
                b'f' => Ok(self.begin(Sort::False, at, State::Word(b"alse"))),
                b't' => Ok(self.begin(Sort::True, at, State::Word(b"rue"))),
                b'-' => Ok(self.begin(Sort::Number, at, State::Minus)),
                b'0' => Ok(self.begin(Sort::Number, at, State::Zero)),
                b'1'..=b'9' => Ok(self.begin(Sort::Number, at, State::Digits)),
                b'"' => Ok(self.begin(Sort::Text, at, State::String)),
                b'[' => {
                    self.open.push(Sort::Array);
                    Ok(self.begin(Sort::Array, at, State::ItemOrEnd))
                }
                b'{' => {
                    self.open.push(Sort::Object);
                    Ok(self.begin(Sort::Object, at, State::NameOrEnd))
                }
                _ => Err(Why::WrongByte),
            },
            _ => Err(Why::WrongByte),
        }
    }

    fn begin(&mut self, sort: Sort, at: usize, next: State) -> State {
        self.tokens.push(Token { sort, begin: at, end: at + 1, closed: false });
        next
    }

    /// Whether what was taken is a whole RFC 8259 text.
    fn is_whole(&self) -> bool {
        let value_can_end =
            matches!(self.state, State::AfterValue | State::Zero | State::Digits | State::Fraction | State::Exponent);
        self.open.is_empty() && value_can_end
    }
}

/// The place of the first byte that breaks UTF-8. A text that ends inside a character breaks nothing.
fn breaks_utf8(text: &[u8]) -> Option<usize> {
    let error = str::from_utf8(text).err()?;
    let sound = error.valid_up_to();
    let wrong = error.error_len()?;
    // A first byte that begins no character is wrong itself. Else `wrong` bytes begin one and the next byte breaks it.
    Some(if matches!(text[sound], 0xc2..=0xf4) { sound + wrong } else { sound })
}

/// The tokens of a text up to the place of refusal 2, and that fault, if there is one.
pub fn scan(text: &[u8]) -> (Vec<Token>, Option<Fault>) {
    let broken = breaks_utf8(text);
    let mut machine = Machine { state: State::Value, open: Vec::new(), tokens: Vec::new() };
    for (place, &byte) in text[..broken.unwrap_or(text.len())].iter().enumerate() {
        if let Err(why) = machine.take(place, byte) {
            return (machine.tokens, Some(Fault { why, place }));
        }
    }
    let stop = match broken {
        Some(place) => Some(Fault { why: Why::IllFormedUtf8, place }),
        None if machine.is_whole() => None,
        None => Some(Fault { why: Why::EndsEarly, place: text.len() }),
    };
    (machine.tokens, stop)
}

#[cfg(test)]
mod tests {
    use super::*;

    fn stops(text: &[u8]) -> Option<(Why, usize)> {
        scan(text).1.map(|fault| (fault.why, fault.place))
    }

    #[test]
    fn utf8_breaks_at_the_byte_that_cannot_go_on() {
        for (text, place) in [
            (&b"\xc3\x28"[..], Some(1)),
            (b"\xe0\x80", Some(1)),
            (b"\xe0\x9f\xbf", Some(1)),
            (b"\xed\xa0\x80", Some(1)),
            (b"\xf0\x8f\xbf\xbf", Some(1)),
            (b"\xf4\x90\x80\x80", Some(1)),
            (b"\xe2\x82\x28", Some(2)),
            (b"\xf0\x90\x80\x28", Some(3)),
            (b"\xf0\x90\x80\xc3", Some(3)),
            (b"a\x80", Some(1)),
            (b"\xc0\xaf", Some(0)),
            (b"\xc1\xbf", Some(0)),
            (b"\xf5\x80", Some(0)),
            (b"\xff", Some(0)),
            (b"\xe2\x82", None),
            (b"\xf0\x90\x80", None),
            (b"\xc3\xa9\xe2\x82\xac\xf4\x8f\xbf\xbf\xed\x9f\xbf\xee\x80\x80", None),
        ] {
            assert_eq!(breaks_utf8(text), place, "{:02x?}", text);
        }
    }

    #[test]
    fn texts_stop_where_no_text_goes_on() {
        for (text, stop) in [
            (&b""[..], Some((Why::EndsEarly, 0))),
            (b" \t\r\n", Some((Why::EndsEarly, 4))),
            (b"\xef\xbb\xbf1", Some((Why::WrongByte, 0))),
            (b"nul", Some((Why::EndsEarly, 3))),
            (b"nulL", Some((Why::BrokenWord, 3))),
            (b"nulll", Some((Why::MoreAfterValue, 4))),
            (b"01", Some((Why::MoreAfterValue, 1))),
            (b"-", Some((Why::EndsEarly, 1))),
            (b"-a", Some((Why::BrokenNumber, 1))),
            (b"1.", Some((Why::EndsEarly, 2))),
            (b"1.e1", Some((Why::BrokenNumber, 2))),
            (b"1e+", Some((Why::EndsEarly, 3))),
            (b"1e5.", Some((Why::MoreAfterValue, 3))),
            (b"[1.5e-07,0]", None),
            (b"[1,]", Some((Why::WrongByte, 3))),
            (b"[,1]", Some((Why::WrongByte, 1))),
            (b"[1}", Some((Why::WrongByte, 2))),
            (b"{\"a\"}", Some((Why::WrongByte, 4))),
            (b"{\"a\":1,}", Some((Why::WrongByte, 7))),
            (b"{1:1}", Some((Why::WrongByte, 1))),
            (b"\"\x7f\"", None),
            (b"\"\x1f\"", Some((Why::RawControl, 1))),
            (b"\"\\x\"", Some((Why::NoEscape, 2))),
            (b"\"\\u12g4\"", Some((Why::NoHexDigit, 5))),
            (b"\"\\u12\"", Some((Why::NoHexDigit, 5))),
            (b"\"\xc3", Some((Why::EndsEarly, 2))),
            (b"\"\xc3\"", Some((Why::IllFormedUtf8, 2))),
            (b"[] []", Some((Why::MoreAfterValue, 3))),
        ] {
            assert_eq!(stops(text), stop, "{:?}", String::from_utf8_lossy(text));
        }
    }

    /// Bytes that make a whole text of what the machine took, but for a character that is not whole.
    fn completion(machine: &Machine) -> Vec<u8> {
        let name = machine.tokens.last().map_or(false, |token| token.sort == Sort::Name);
        let string_end: &[u8] = if name { b"\":0" } else { b"\"" };
        let mut open = machine.open.clone();
        let mut bytes = match machine.state {
            State::Value | State::Minus | State::Point | State::Mark | State::Sign => b"0".to_vec(),
            State::Name => b"\"\":0".to_vec(),
            State::Colon => b":0".to_vec(),
            State::Word(rest) => rest.to_vec(),
            State::String => string_end.to_vec(),
            State::Escape => [b"n", string_end].concat(),
            State::Hex(left) => [&b"0000"[..usize::from(left)], string_end].concat(),
            _ => Vec::new(),
        };
        while let Some(sort) = open.pop() {
            bytes.push(if sort == Sort::Array { b']' } else { b'}' });
        }
        bytes
    }

    #[test]
    fn what_was_taken_begins_a_text() {
        let rests: [&[u8]; 6] = [b"", b"\x80", b"\x80\x80", b"\x80\x80\x80", b"\xa0\x80", b"\x90\x80\x80"];
        let mut tried = 0;
        for (_, text) in
            crate::cases::all().into_iter().flat_map(|case| case.texts).filter(|(_, text)| text.len() < 200)
        {
            let stop = scan(&text).1.map_or(text.len(), |fault| fault.place);
            let mut machine = Machine { state: State::Value, open: Vec::new(), tokens: Vec::new() };
            for place in 0..=stop {
                let whole = |rest: &&[u8]| scan(&[&text[..place], rest, &completion(&machine)].concat()).1.is_none();
                assert!(rests.iter().any(whole), "{} bytes of {:?}", place, String::from_utf8_lossy(&text));
                tried += 1;
                if place < stop {
                    machine.take(place, text[place]).unwrap();
                }
            }
        }
        assert!(tried > 100_000, "only {} tried", tried);
    }
}
