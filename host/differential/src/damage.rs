//! Damages texts, by bytes and by tokens.

use crate::generate;
use crate::random::Random;

const BYTES: &[u8] = b"\"\\[]{}:,-+.0123456789eEtrufalsn \t\n\r/bfux\x00\x0b\x1f\x7f\x80\xbf\xc0\xc2\xc3\xe0\xe2\xed\xef\xf0\xf4\xf5\xff";

#[rustfmt::skip]
const TOKENS: [&[u8]; 26] = [
    b"null", b"true", b"false", b"[]", b"{}", b"[", b"{", b"\"\"", b"\"a\"", b"\"a\":", b"1", b"-0", b"1.5", b"1e9",
    b"9007199254740992", b"\\ud800", b"\\udc00", b"\\u0000", b"\\", b"\xef\xbb\xbf", b"\xed\xa0\x80",
    b"\xf0\x9f\x98\x80", b",,", b"//", b"/**/", b"'a'",
];

/// Damages a text in one to three places.
pub fn damage(random: &mut Random, text: &mut Vec<u8>) {
    for _ in 0..random.pick(&[1, 1, 1, 2, 3]) {
        once(random, text);
    }
}

fn once(random: &mut Random, text: &mut Vec<u8>) {
    if text.is_empty() {
        text.push(random.pick(BYTES));
        return;
    }
    let at = random.below(text.len());
    let end = (at + random.pick(&[1, 1, 1, 2, 3, 6, 20])).min(text.len());
    match random.below(15) {
        0 => text[at] ^= 1 << random.below(8),
        1 => text[at] = random.byte(),
        2 => text[at] = random.pick(BYTES),
        3 => drop(text.drain(at..end)),
        4 => text.insert(at, random.pick(BYTES)),
        5 => drop(text.splice(at..at, random.pick(&TOKENS).iter().copied())),
        6 => text.truncate(at),
        7 => text.truncate(text.len() - 1 - random.below(text.len().min(4))),
        8 => {
            let other = generate::text(random);
            let from = random.below(other.len() + 1);
            let until = if random.chance(50) { other.len() } else { random.between(from, other.len()) };
            let kept = if random.chance(50) { end } else { text.len() };
            drop(text.splice(at..kept, other[from..until].iter().copied()));
        }
        9 => {
            let next = if random.chance(50) { (at + 1) % text.len() } else { random.below(text.len()) };
            text.swap(at, next);
        }
        10 => {
            let piece = text[at..end].to_vec();
            let to = random.below(text.len() + 1);
            drop(text.splice(to..to, piece));
        }
        11 => change_one(random, text, b"[]{}:,\"", b"[]{}:,\""),
        12 => {
            let junk: &[u8] = random.pick(&[b"\xef\xbb\xbf", b" ", b"\0", b"1", b"[]", b"\x0c", b"\xc2\xa0", b"#"]);
            let to = random.pick(&[0, text.len()]);
            drop(text.splice(to..to, junk.iter().copied()));
        }
        13 => change_one(random, text, b"truefalsn", b"TRUEFALSN"),
        _ => {
            let digits: Vec<usize> = (0..text.len()).filter(|&at| text[at].is_ascii_digit()).collect();
            if !digits.is_empty() {
                let after = random.pick(&digits) + 1;
                let tail: &[u8] =
                    random.pick(&[b".", b".0", b"e", b"E1", b"0", b"00000000000000000", b"9999999999999999", b"-"]);
                drop(text.splice(after..after, tail.iter().copied()));
            }
        }
    }
}

/// Changes one byte of a set to one of another set.
fn change_one(random: &mut Random, text: &mut [u8], from: &[u8], to: &[u8]) {
    let places: Vec<usize> = (0..text.len()).filter(|&at| from.contains(&text[at])).collect();
    if !places.is_empty() {
        text[random.pick(&places)] = random.pick(to);
    }
}
