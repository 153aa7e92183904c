//! Texts of values: with white space and escapes, or without.

use crate::random::Random;
use writer::value::Value;

/// A text of a value whose strings are UTF-8.
pub fn spell(random: &mut Random, value: &Value) -> Vec<u8> {
    let (spaced, escaped) = (random.pick(&[0, 0, 0, 5, 40]), random.pick(&[0, 0, 0, 5, 60]));
    if (spaced, escaped) == (0, 0) {
        return value.text();
    }
    let mut speller = Speller { random, spaced, escaped, out: Vec::new() };
    speller.gap();
    speller.value(value);
    speller.gap();
    speller.out
}

struct Speller<'a> {
    random: &'a mut Random,
    /// Percent of gaps with white space.
    spaced: usize,
    /// Percent of characters that are escaped without need.
    escaped: usize,
    out: Vec<u8>,
}

impl Speller<'_> {
    fn gap(&mut self) {
        if self.random.chance(self.spaced) {
            for _ in 0..self.random.pick(&[1, 1, 2, 5]) {
                self.out.push(self.random.pick(b" \t\n\r"));
            }
        }
    }

    fn value(&mut self, value: &Value) {
        match value {
            Value::Integer(0) if self.random.chance(self.escaped) => self.out.extend(b"-0"),
            Value::String(bytes) => self.string(bytes),
            Value::Array(items) => self.parts(b"[]", items, |speller, item| speller.value(item)),
            Value::Object(members) => self.parts(b"{}", members, |speller, (name, content)| {
                speller.string(name);
                speller.gap();
                speller.out.push(b':');
                speller.gap();
                speller.value(content);
            }),
            _ => self.out.extend(value.text()),
        }
    }

    fn parts<T>(&mut self, brackets: &[u8; 2], parts: &[T], mut put: impl FnMut(&mut Self, &T)) {
        self.out.push(brackets[0]);
        self.gap();
        for (at, part) in parts.iter().enumerate() {
            if at > 0 {
                self.out.push(b',');
                self.gap();
            }
            put(self, part);
            self.gap();
        }
        self.out.push(brackets[1]);
    }

    fn string(&mut self, bytes: &[u8]) {
        let content = std::str::from_utf8(bytes).expect("strings are UTF-8");
        self.out.push(b'"');
        for character in content.chars() {
            if self.random.chance(self.escaped) {
                for unit in character.encode_utf16(&mut [0; 2]) {
                    let escape =
                        if self.random.chance(50) { format!("\\u{:04x}", unit) } else { format!("\\u{:04X}", unit) };
                    self.out.extend(escape.bytes());
                }
            } else {
                let text = Value::String(character.to_string().into_bytes()).text();
                self.out.extend(&text[1..text.len() - 1]);
            }
        }
        self.out.push(b'"');
    }
}

#[cfg(test)]
mod tests {
    use super::*;
    use crate::values;
    use writer::layout::read;

    #[test]
    fn spelled_values_read_as_themselves() {
        let mut random = Random::new(1);
        let mut spaced = 0;
        for _ in 0..5_000 {
            let value = values::record(&mut random);
            let text = spell(&mut random, &value);
            spaced += usize::from(text.len() > value.text().len());
            assert!(text.len() > reader::MAX_TEXT_BYTES || read(&text) == Some(value), "{:?}", text);
        }
        assert!(spaced > 1_000);
    }
}
