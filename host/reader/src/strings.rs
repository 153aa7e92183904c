//! What names and strings stand for.
//!
//! The content of one is written out as UTF-16 code units, those of escapes and those of raw characters; the standard
//! library then joins the pairs and tells the lone surrogates. A raw character never gives half a pair, so a lone
//! surrogate is one that an escape gave.

use crate::machine::{Sort, Token};
use crate::{Fault, Why};
use std::{char, str};

/// What a name or string stands for, as far as the text goes. Of another token: nothing.
#[derive(Default)]
pub struct Content {
    pub decoded: String,
    /// Its lone surrogate escapes.
    pub lone: Vec<Fault>,
}

/// The content of each token.
pub fn of(text: &[u8], tokens: &[Token]) -> Vec<Content> {
    let content = |token: &Token| match token.sort {
        Sort::Name | Sort::Text => decode(text, token),
        _ => Content::default(),
    };
    tokens.iter().map(content).collect()
}

fn decode(text: &[u8], token: &Token) -> Content {
    let units = units(text, token);
    let mut decoded = String::with_capacity(token.end - token.begin);
    let mut lone = Vec::new();
    let mut at = 0;
    for character in char::decode_utf16(units.iter().map(|&(unit, _)| unit)) {
        match character {
            Ok(character) => {
                decoded.push(character);
                at += character.len_utf16();
            }
            Err(error) => {
                let why = if error.unpaired_surrogate() < 0xdc00 { Why::LoneHigh } else { Why::LoneLow };
                lone.push(Fault { why, place: units[at].1 });
                at += 1;
            }
        }
    }
    Content { decoded, lone }
}

/// The code units of a name or string, each with the place of its escape, or of the run of raw characters in which it
/// stands. An escape or a character that is not whole, where the text stops, gives none.
fn units(text: &[u8], token: &Token) -> Vec<(u16, usize)> {
    let end = if token.closed { token.end - 1 } else { token.end };
    let mut units = Vec::with_capacity(end - token.begin);
    let mut at = token.begin + 1;
    while at < end {
        if text[at] == b'\\' {
            match escape(&text[at + 1..end]) {
                Some((unit, length)) => {
                    units.push((unit, at));
                    at += 1 + length;
                }
                None => break,
            }
        } else {
            let length = text[at..end].iter().position(|&byte| byte == b'\\').unwrap_or(end - at);
            for character in characters(&text[at..at + length]).chars() {
                let mut pair = [0; 2];
                units.extend(character.encode_utf16(&mut pair).iter().map(|&unit| (unit, at)));
            }
            at += length;
        }
    }
    units
}

/// The code unit of the escape whose backslash stands before these bytes, and how many of them it takes.
fn escape(bytes: &[u8]) -> Option<(u16, usize)> {
    let plain = |character: u8| Some((u16::from(character), 1));
    match bytes.first()? {
        b'b' => plain(0x08),
        b't' => plain(0x09),
        b'n' => plain(0x0a),
        b'f' => plain(0x0c),
        b'r' => plain(0x0d),
        b'u' => {
            let digits = str::from_utf8(bytes.get(1..5)?).ok()?;
            Some((u16::from_str_radix(digits, 16).ok()?, 5))
        }
        &itself => plain(itself),
    }
}

/// The characters of these bytes, without a last one that is not whole.
fn characters(bytes: &[u8]) -> &str {
    str::from_utf8(bytes).unwrap_or_else(|error| str::from_utf8(&bytes[..error.valid_up_to()]).unwrap())
}

#[cfg(test)]
mod tests {
    use super::*;
    use crate::machine::scan;

    fn decoded(text: &str) -> (String, Vec<(Why, usize)>) {
        let tokens = scan(text.as_bytes()).0;
        let content = decode(text.as_bytes(), &tokens[0]);
        (content.decoded, content.lone.iter().map(|fault| (fault.why, fault.place)).collect())
    }

    #[test]
    fn escapes_and_raw_characters_decode() {
        let (content, lone) = decoded(r#""a\"\\\/\b\f\n\r\t\u00e9é\u20AC€\ud83d\ude00😀\u0000""#);
        assert_eq!(content, "a\"\\/\u{8}\u{c}\n\r\té\u{e9}€\u{20ac}😀\u{1f600}\0");
        assert!(lone.is_empty());
    }

    #[test]
    fn lone_surrogates_are_told_by_their_backslash() {
        for (text, lone) in [
            (r#""\ud800""#, vec![(Why::LoneHigh, 1)]),
            (r#""\udc00""#, vec![(Why::LoneLow, 1)]),
            (r#""\ud800\ud800\udc00""#, vec![(Why::LoneHigh, 1)]),
            (r#""\ud800\udc00\udc00""#, vec![(Why::LoneLow, 13)]),
            (r#""\ud800x\udc00""#, vec![(Why::LoneHigh, 1), (Why::LoneLow, 8)]),
            (r#""\ud83d😀""#, vec![(Why::LoneHigh, 1)]),
            (r#""😀\ude00""#, vec![(Why::LoneLow, 5)]),
            (r#""\ud800\udc0"#, vec![(Why::LoneHigh, 1)]),
            (r#""\ud800\"#, vec![(Why::LoneHigh, 1)]),
            (r#""\ud800"#, vec![(Why::LoneHigh, 1)]),
            (r#""\ud80"#, vec![]),
        ] {
            assert_eq!(decoded(text).1, lone, "{}", text);
        }
    }
}
