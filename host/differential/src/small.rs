//! Small texts, all there are of some forms.

/// Calls `try_text` with every text of up to `length` pieces, between `before` and `after`.
fn every(pieces: &[&[u8]], length: usize, before: &[u8], after: &[u8], try_text: &mut dyn FnMut(&[u8])) {
    let mut chosen: Vec<usize> = Vec::new();
    loop {
        let mut text = before.to_vec();
        chosen.iter().for_each(|&piece| text.extend_from_slice(pieces[piece]));
        text.extend_from_slice(after);
        try_text(&text);
        // The next choice, as one counts; a digit more after the last of a length.
        let mut at = chosen.len();
        while at > 0 && chosen[at - 1] + 1 == pieces.len() {
            at -= 1;
            chosen[at] = 0;
        }
        if at > 0 {
            chosen[at - 1] += 1;
        } else if chosen.len() == length {
            return;
        } else {
            chosen.push(0);
        }
    }
}

/// One form of small texts: its name, and a function that makes them all.
pub type Form = (&'static str, fn(&mut dyn FnMut(&[u8])));

pub const FORMS: [Form; 8] = [
    ("all texts of up to 2 bytes", |try_text| {
        let bytes: Vec<[u8; 1]> = (0..=255).map(|byte| [byte]).collect();
        let pieces: Vec<&[u8]> = bytes.iter().map(|byte| &byte[..]).collect();
        every(&pieces, 2, b"", b"", try_text);
    }),
    ("all strings of up to 2 bytes", |try_text| {
        let bytes: Vec<[u8; 1]> = (0..=255).map(|byte| [byte]).collect();
        let pieces: Vec<&[u8]> = bytes.iter().map(|byte| &byte[..]).collect();
        every(&pieces, 2, b"\"", b"\"", try_text);
    }),
    ("all texts of up to 5 bytes of numbers", |try_text| {
        let pieces: [&[u8]; 9] = [b"-", b"0", b"1", b"9", b".", b"e", b"E", b"+", b" "];
        every(&pieces, 5, b"", b"", try_text);
        every(&pieces, 4, b"[", b"]", try_text);
    }),
    ("all texts of up to 5 tokens", |try_text| {
        let pieces: [&[u8]; 9] = [b"[", b"]", b"{", b"}", b",", b":", b"\"a\"", b"\"b\"", b"1"];
        every(&pieces, 5, b"", b"", try_text);
        every(&pieces, 4, b"{\"a\":[1,", b"]}", try_text);
        every(&pieces, 4, b"[{\"b\":1 ", b"}]", try_text);
    }),
    ("all escapes \\uXXXX", |try_text| {
        for unit in 0..=0xffff {
            let escape = if unit % 2 == 0 { format!("\"\\u{:04x}\"", unit) } else { format!("\"\\u{:04X}\"", unit) };
            try_text(escape.as_bytes());
        }
    }),
    ("pairs and threes of escapes and characters", |try_text| {
        let pieces: [&[u8]; 14] = [
            b"\\ud7ff",
            b"\\ud800",
            b"\\uDBFF",
            b"\\udc00",
            b"\\uDFFF",
            b"\\ue000",
            b"\\n",
            b"\\",
            b"\\u",
            b"\\ud80",
            b"\\\\",
            b"x",
            b"\xf0\x90\x80\x80",
            b"u",
        ];
        every(&pieces, 3, b"\"", b"\"", try_text);
        every(&pieces, 3, b"{\"", b"", try_text);
    }),
    ("UTF-8 at its ends", |try_text| {
        let later: [&[u8]; 9] = [b"", b"\x7f", b"\x80", b"\x8f", b"\x90", b"\x9f", b"\xa0", b"\xbf", b"\xc0"];
        for first in 0x7f..=0xff {
            every(&later, 3, &[b'"', first], b"\"", try_text);
        }
    }),
    ("one text with each byte at each place", |try_text| {
        let sample = "{\"a\":[1,-20,\"x\\n\\u00e9\\ud83d\\ude00é€😀\",null,true,false,[]],\"b\":{\"a\":{}}, \"\":0}\n"
            .as_bytes();
        for at in 0..=sample.len() {
            try_text(&sample[..at]);
            try_text(&sample[at..]);
            for byte in 0..=255 {
                let mut text = sample.to_vec();
                text.insert(at, byte);
                try_text(&text);
                if at < sample.len() {
                    text.remove(at + 1);
                    try_text(&text);
                }
            }
        }
    }),
];
