//! Values, their text, and refusals 11 and 12, written from document 01 ("What comes back", "Writing") and RFC 8785,
//! section 3.2.2.2.
//!
//! Text, number of values and nesting are three functions of the whole value; `written` holds them to the limits after
//! that. Nothing is written into an area here.

use crate::dates;

pub const MAX_NESTING: usize = 32;
pub const MAX_VALUES: usize = 1_024;
pub const MAX_TEXT_BYTES: usize = 16_384;

pub const TOO_LARGE: u32 = 11;
pub const OUTPUT_TOO_SHORT: u32 = 12;

/// A value. Strings and names are bytes: areas may hold any.
#[derive(Clone, Debug, PartialEq, Eq, Hash)]
pub enum Value {
    Null,
    Boolean(bool),
    Integer(i128),
    String(Vec<u8>),
    /// Milliseconds from 1970-01-01, in range.
    Instant(i64),
    Array(Vec<Value>),
    Object(Vec<(Vec<u8>, Value)>),
}

impl Value {
    pub fn text(&self) -> Vec<u8> {
        let mut text = Vec::new();
        self.write(&mut text);
        text
    }

    fn write(&self, text: &mut Vec<u8>) {
        match self {
            Value::Null => text.extend(b"null"),
            Value::Boolean(false) => text.extend(b"false"),
            Value::Boolean(true) => text.extend(b"true"),
            Value::Integer(integer) => text.extend(integer.to_string().bytes()),
            Value::String(bytes) => write_string(bytes, text),
            Value::Instant(ms) => write_string(&dates::text(*ms).expect("an instant in range"), text),
            Value::Array(items) => {
                text.push(b'[');
                for (at, item) in items.iter().enumerate() {
                    if at > 0 {
                        text.push(b',');
                    }
                    item.write(text);
                }
                text.push(b']');
            }
            Value::Object(members) => {
                text.push(b'{');
                for (at, (name, content)) in members.iter().enumerate() {
                    if at > 0 {
                        text.push(b',');
                    }
                    write_string(name, text);
                    text.push(b':');
                    content.write(text);
                }
                text.push(b'}');
            }
        }
    }

    /// The items, or the contents of the members. Names are not values.
    pub fn parts(&self) -> impl Iterator<Item = &Value> {
        let (items, members): (&[Value], &[(Vec<u8>, Value)]) = match self {
            Value::Array(items) => (items, &[]),
            Value::Object(members) => (&[], members),
            _ => (&[], &[]),
        };
        items.iter().chain(members.iter().map(|(_, content)| content))
    }

    /// The number of values, this one included.
    pub fn count(&self) -> usize {
        1 + self.parts().map(Value::count).sum::<usize>()
    }

    /// How deep arrays and objects nest.
    pub fn nesting(&self) -> usize {
        let nests = matches!(self, Value::Array(_) | Value::Object(_));
        usize::from(nests) + self.parts().map(Value::nesting).max().unwrap_or(0)
    }

    pub fn has_instants(&self) -> bool {
        matches!(self, Value::Instant(_)) || self.parts().any(Value::has_instants)
    }

    /// The text, for an output area of so many bytes; or 11, or else 12.
    pub fn written(&self, room: usize) -> Result<Vec<u8>, u32> {
        let text = self.text();
        if self.nesting() > MAX_NESTING || self.count() > MAX_VALUES || text.len() > MAX_TEXT_BYTES {
            Err(TOO_LARGE)
        } else if text.len() > room {
            Err(OUTPUT_TOO_SHORT)
        } else {
            Ok(text)
        }
    }
}

/// A string as RFC 8785 spells it: U+0008, U+0009, U+000A, U+000C and U+000D as \b, \t, \n, \f and \r; other control
/// characters as \uhhhh in lower case; the quote and the backslash with a backslash; all else as it is.
fn write_string(bytes: &[u8], text: &mut Vec<u8>) {
    text.push(b'"');
    for &byte in bytes {
        match byte {
            0x08 => text.extend(b"\\b"),
            0x09 => text.extend(b"\\t"),
            0x0a => text.extend(b"\\n"),
            0x0c => text.extend(b"\\f"),
            0x0d => text.extend(b"\\r"),
            0x00..=0x1f => text.extend(format!("\\u{:04x}", byte).bytes()),
            b'"' | b'\\' => text.extend([b'\\', byte]),
            _ => text.push(byte),
        }
    }
    text.push(b'"');
}

#[cfg(test)]
mod tests {
    use super::*;

    fn string(content: &str) -> Value {
        Value::String(content.into())
    }

    fn text(value: &Value) -> String {
        String::from_utf8(value.text()).unwrap()
    }

    #[test]
    fn scalars() {
        for (value, expected) in [
            (Value::Null, "null"),
            (Value::Boolean(false), "false"),
            (Value::Boolean(true), "true"),
            (Value::Integer(0), "0"),
            (Value::Integer(-1), "-1"),
            (Value::Integer(9_007_199_254_740_991), "9007199254740991"),
            (Value::Integer(-9_007_199_254_740_991), "-9007199254740991"),
            (Value::Instant(1_583_107_200_000), "\"2020-03-02T00:00:00.000Z\""),
            (Value::Instant(dates::EARLIEST), "\"0000-01-01T00:00:00.000Z\""),
            (Value::Instant(dates::LATEST), "\"9999-12-31T23:59:59.999Z\""),
            (Value::Instant(-1), "\"1969-12-31T23:59:59.999Z\""),
        ] {
            assert_eq!(text(&value), expected);
        }
    }

    #[test]
    fn strings() {
        // RFC 8785, 3.2.2.2, its own example, and each control character.
        assert_eq!(text(&string("\u{20ac}$\u{f}\nA'B\"\\\\\"/")), "\"\u{20ac}$\\u000f\\nA'B\\\"\\\\\\\\\\\"/\"");
        assert_eq!(
            text(&string("\0\u{1}\u{2}\u{3}\u{4}\u{5}\u{6}\u{7}")),
            r#""\u0000\u0001\u0002\u0003\u0004\u0005\u0006\u0007""#
        );
        assert_eq!(text(&string("\u{8}\t\n\u{b}\u{c}\r\u{e}\u{f}")), r#""\b\t\n\u000b\f\r\u000e\u000f""#);
        assert_eq!(text(&string("\u{10}\u{11}\u{12}\u{13}\u{14}\u{15}")), r#""\u0010\u0011\u0012\u0013\u0014\u0015""#);
        assert_eq!(text(&string("\u{16}\u{17}\u{18}\u{19}\u{1a}\u{1b}")), r#""\u0016\u0017\u0018\u0019\u001a\u001b""#);
        assert_eq!(text(&string("\u{1c}\u{1d}\u{1e}\u{1f} \u{7f}é€😀")), "\"\\u001c\\u001d\\u001e\\u001f \u{7f}é€😀\"");
        assert_eq!(Value::String(vec![0xff, 0x80, 0xc0]).text(), b"\"\xff\x80\xc0\"");
    }

    #[test]
    fn arrays_and_objects() {
        let pair = |name: &str, content| (name.as_bytes().to_vec(), content);
        let value = Value::Object(vec![
            pair("z", Value::Array(vec![Value::Integer(1), Value::Array(vec![]), Value::Null])),
            pair("", Value::Object(vec![])),
            pair("a\"", Value::Object(vec![pair("a\"", string(""))])),
        ]);
        assert_eq!(text(&value), r#"{"z":[1,[],null],"":{},"a\"":{"a\"":""}}"#);
        assert_eq!((value.count(), value.nesting()), (8, 3));
        assert_eq!((Value::Null.count(), Value::Null.nesting()), (1, 0));
        assert_eq!((Value::Array(vec![]).count(), Value::Array(vec![]).nesting()), (1, 1));
    }

    #[test]
    fn refusals() {
        let nested = |depth: usize| (1..depth).fold(Value::Array(vec![]), |inner, _| Value::Array(vec![inner]));
        let many = |values: usize| Value::Array(vec![Value::Integer(7); values - 1]);
        let long = |bytes: usize| string(&"x".repeat(bytes - 2));
        let number = |value: &Value, room: usize| value.written(room).map_or_else(|number| number, |_| 0);
        for (value, larger, length) in
            [(nested(32), nested(33), 64), (many(1024), many(1025), 2047), (long(16_384), long(16_385), 16_384)]
        {
            assert_eq!(value.written(length), Ok(value.text()));
            assert_eq!(number(&value, length - 1), 12);
            assert_eq!(number(&value, 0), 12);
            for room in [0, length, 16_384, 100_000] {
                assert_eq!(number(&larger, room), 11);
            }
        }
        assert_eq!(number(&string(&"\u{1}".repeat(2_730)), 16_384), 0); // 6 * 2,730 + 2 = 16,382
        assert_eq!(number(&string(&"\u{1}".repeat(2_731)), 16_384), 11);
        assert_eq!(number(&string(&"\n".repeat(8_191)), 16_384), 0); // 2 * 8,191 + 2 = 16,384
        assert_eq!(number(&string(&"\n".repeat(8_192)), 16_384), 11);
    }
}
