//! Every fault of refusals 3, 4 and 5 in a text.
//!
//! A token holds only bytes that the machine took, so the bytes through each place given here begin an RFC 8259 text.

use crate::machine::{Sort, Token};
use crate::strings::Content;
use crate::{Fault, Why, MAX_INTEGER, MAX_NESTING, MAX_VALUES};
use std::collections::HashMap;
use std::str;

/// The faults of a text with these tokens and their contents.
pub fn of(text: &[u8], tokens: &[Token], contents: &[Content]) -> Vec<Fault> {
    let mut found = of_limits(tokens);
    found.extend(of_names(text, tokens, contents));
    found.extend(contents.iter().flat_map(|content| &content.lone));
    for number in tokens.iter().filter(|token| token.sort == Sort::Number) {
        found.extend(of_number(text, number));
    }
    found
}

/// Faults 5, each at the first token that passes a limit.
fn of_limits(tokens: &[Token]) -> Vec<Fault> {
    let mut found = Vec::new();
    if let Some(token) = tokens.iter().filter(|token| token.is_value()).nth(MAX_VALUES) {
        found.push(Fault { why: Why::TooManyValues, place: token.begin });
    }
    let mut nesting = 0;
    for token in tokens {
        match token.sort {
            Sort::Array | Sort::Object if nesting == MAX_NESTING => {
                found.push(Fault { why: Why::TooDeep, place: token.begin });
                break;
            }
            Sort::Array | Sort::Object => nesting += 1,
            Sort::Close => nesting -= 1,
            _ => {}
        }
    }
    found
}

/// Faults 4 of one number: the dot, the mark of the exponent, and the first digit with which the digits read so far
/// are beyond the limit.
fn of_number(text: &[u8], token: &Token) -> Vec<Fault> {
    let number = str::from_utf8(&text[token.begin..token.end]).unwrap();
    let begin = usize::from(number.starts_with('-'));
    let end = number[begin..].find(|c: char| !c.is_ascii_digit()).map_or(number.len(), |length| begin + length);
    let is_beyond = |end: &usize| number[begin..*end].parse::<u64>().unwrap() > MAX_INTEGER;
    let offsets = [
        (Why::Fraction, number.find('.')),
        (Why::Exponent, number.find(['e', 'E'])),
        (Why::IntegerBeyond, (begin + 1..=end).find(is_beyond).map(|end| end - 1)),
    ];
    offsets.iter().filter_map(|&(why, offset)| Some(Fault { why, place: token.begin + offset? })).collect()
}

/// Repeated names, each at its closing quote.
fn of_names(text: &[u8], tokens: &[Token], contents: &[Content]) -> Vec<Fault> {
    let mut found = Vec::new();
    let mut open: Vec<HashMap<&str, &[u8]>> = Vec::new(); // of each open array and object: its names, and as spelled
    for (token, content) in tokens.iter().zip(contents) {
        match token.sort {
            Sort::Array | Sort::Object => open.push(HashMap::new()),
            Sort::Close => drop(open.pop()),
            Sort::Name if token.closed => {
                let spelled = &text[token.begin..token.end];
                if let Some(first) = open.last_mut().unwrap().insert(&content.decoded, spelled) {
                    let why = if first == spelled { Why::NameTwice } else { Why::NameTwiceOtherwiseSpelled };
                    found.push(Fault { why, place: token.end - 1 });
                }
            }
            _ => {}
        }
    }
    found
}

#[cfg(test)]
mod tests {
    use super::*;
    use crate::machine::scan;

    fn found(text: &str) -> Vec<(Why, usize)> {
        let tokens = scan(text.as_bytes()).0;
        let contents = crate::strings::of(text.as_bytes(), &tokens);
        of(text.as_bytes(), &tokens, &contents).iter().map(|fault| (fault.why, fault.place)).collect()
    }

    #[test]
    fn numbers() {
        assert_eq!(found("9007199254740991"), []);
        assert_eq!(found("-9007199254740991"), []);
        assert_eq!(found("9007199254740992"), [(Why::IntegerBeyond, 15)]);
        assert_eq!(found("-9007199254740992"), [(Why::IntegerBeyond, 16)]);
        assert_eq!(found(" 10000000000000000"), [(Why::IntegerBeyond, 17)]);
        assert_eq!(found(&"9".repeat(1000)), [(Why::IntegerBeyond, 15)]);
        assert_eq!(found("1.5e3"), [(Why::Fraction, 1), (Why::Exponent, 3)]);
        assert_eq!(found("[-0.0"), [(Why::Fraction, 3)]);
        assert_eq!(found("99999999999999999999E1"), [(Why::Exponent, 20), (Why::IntegerBeyond, 15)]);
        assert_eq!(found("-"), []);
        assert_eq!(found("-0"), []);
    }

    #[test]
    fn names() {
        assert_eq!(found(r#"{"a":1,"a"#), []);
        assert_eq!(found(r#"{"a":1,"a""#), [(Why::NameTwice, 9)]);
        assert_eq!(found(r#"{"a":1,"\u0061""#), [(Why::NameTwiceOtherwiseSpelled, 14)]);
        assert_eq!(found(r#"{"a":{"a":"a"},"b":[{"a":1},{"a":1}]}"#), []);
        assert_eq!(found(r#"{"a":{"b":1},"a":1}"#), [(Why::NameTwice, 15)]);
    }

    #[test]
    fn limits() {
        assert_eq!(found(&"[".repeat(32)), []);
        assert_eq!(found(&"[".repeat(40)), [(Why::TooDeep, 32)]);
        assert_eq!(found(&("[".to_string() + &"[],".repeat(100))), []);
        assert_eq!(found(&("[".to_string() + &"0,".repeat(1023))), []);
        assert_eq!(found(&("[".to_string() + &"0,".repeat(1023) + " 00")), [(Why::TooManyValues, 2048)]);
    }
}
