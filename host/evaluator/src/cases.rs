//! The cases of evaluation, of the check and of sheets in `vectors/`, whose README describes their form.

use crate::entry::{Entry, CHECK, EVALUATE, EVALUATE_CHECKED, FITS};
use crate::words::{Word, Words};
use std::path::PathBuf;
use std::{fs, str};

/// A case of an entry, or of the program.
pub struct Case {
    pub id: String,
    /// Of the program, `EVALUATE`.
    pub entry: &'static Entry,
    /// Of the entry, in its order. A file that is missing is empty.
    pub texts: Vec<Vec<u8>>,
    pub limit: u64,
    /// Bytes of the output area.
    pub room: usize,
    /// A work area that is short of its stated size: its number.
    pub short: Option<usize>,
    pub expected: Expected,
}

/// What a case expects. A number that it does not tell is 0.
pub struct Expected {
    pub refusal: u32,
    /// The number of the text that is refused with 2 to 5.
    pub which: u64,
    pub place: u64,
    /// Told by cases of the check alone.
    pub words: u64,
    /// Told by cases of `fits` alone.
    pub fits: u64,
    pub steps: u64,
    pub answer: Vec<u8>,
    /// Of a case of the program.
    pub stdout: Option<Vec<u8>>,
}

/// All cases, in the order of their files' names.
pub fn all() -> Vec<Case> {
    let mut files: Vec<PathBuf> =
        fs::read_dir(reader::cases::folder()).unwrap().map(|entry| entry.unwrap().path()).collect();
    files.retain(|file| file.extension().map_or(false, |extension| extension == "jsonl"));
    files.sort();
    let lines = |file| fs::read_to_string(file).unwrap().lines().filter_map(case).collect::<Vec<_>>();
    files.iter().flat_map(lines).collect()
}

/// Those of an entry, or of the program with `EVALUATE`.
pub fn of_entry(entry: &'static Entry) -> Vec<Case> {
    all().into_iter().filter(|case| case.entry == entry).collect()
}

/// What follows the name of a member. Serves for the cases only: no string of theirs holds a quote, a comma or a
/// bracket.
fn after<'a>(line: &'a str, name: &str) -> Option<&'a str> {
    let key = format!("\"{}\":", name);
    line.find(&key).map(|at| &line[at + key.len()..])
}

/// The content of a member as it is spelled, without the quotes of a string.
fn member<'a>(line: &'a str, name: &str) -> Option<&'a str> {
    let content = after(line, name)?;
    let content = content[..content.find([',', '}']).unwrap()].trim_matches('"');
    Some(content).filter(|content| *content != "null")
}

fn number(line: &str, name: &str) -> Option<u64> {
    member(line, name).map(|content| content.parse().unwrap())
}

fn bytes(line: &str, name: &str) -> Option<Vec<u8>> {
    let digits = |pair| u8::from_str_radix(str::from_utf8(pair).unwrap(), 16).unwrap();
    member(line, name).map(|hex| hex.as_bytes().chunks(2).map(digits).collect())
}

/// The bits of a list of words.
fn words(line: &str, name: &str) -> u64 {
    let listed = after(line, name).map_or("", |content| &content[1..content.find(']').unwrap()]);
    let spelled: Vec<&str> = listed.split(',').map(|word| word.trim_matches('"')).collect();
    Word::all().filter(|word| spelled.contains(&word.name())).collect::<Words>().0
}

/// The number of the work area that a case names.
fn area(entry: &Entry, name: &str) -> usize {
    let named = match name.rsplit_once('_') {
        Some(("eval", "room")) => "cells".to_string(),
        Some((text, "area")) => format!("{} strings", text),
        _ => name.replace('_', " "),
    };
    entry.areas.iter().position(|area| *area == named).expect("a work area has this name")
}

/// The case of a line, if it is one of these.
fn case(line: &str) -> Option<Case> {
    let (inputs, rest) = line.split_once("\"expect\":")?;
    let (expect, _note) = rest.rsplit_once("\"note\":")?;
    let entry = match member(inputs, "entry")? {
        "evaluate" | "program" => &EVALUATE,
        "check" => &CHECK,
        "fits" => &FITS,
        "evaluate_with_sheet" => &EVALUATE_CHECKED,
        _ => return None,
    };
    let refused = entry.texts.iter().find(|text| member(expect, "text") == Some(text.name()));
    Some(Case {
        id: member(inputs, "id")?.to_string(),
        entry,
        texts: entry.texts.iter().map(|text| bytes(inputs, text.name()).unwrap_or_default()).collect(),
        limit: number(inputs, "limit").unwrap_or(1_000),
        room: number(inputs, "out").unwrap_or(16_384) as usize,
        short: member(inputs, "short").map(|name| area(entry, name)),
        expected: Expected {
            refusal: number(expect, "refusal").unwrap_or(0) as u32,
            which: refused.map_or(0, |text| *text as u64),
            place: number(expect, "place").unwrap_or(0),
            words: words(expect, "kinds"),
            fits: u64::from(member(expect, "fits") == Some("true")),
            steps: number(expect, "steps").unwrap_or(0),
            answer: bytes(expect, "answer").unwrap_or_default(),
            stdout: bytes(expect, "stdout"),
        },
    })
}
