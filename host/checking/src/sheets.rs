//! Random sheets, records for them, and what nearly is a sheet.

use crate::rules::{any_word, good_date, good_day};
use evaluation::values::{self, any_integer, any_string, integer, member, string, Kind};
use evaluator::value;
use evaluator::words::*;
use harness::random::Random;
use writer::value::Value;

/// Paths and their words.
pub type Listed = Vec<(String, Words)>;

/// The words that a record's value belongs to.
pub fn held(value: &Value) -> Words {
    let value = value::Value::from(value);
    Word::all().filter(|word| word.holds(&value)).collect()
}

/// The value of a sheet: its members in this order, the words of each in any order.
pub fn sheet(random: &mut Random, listed: &Listed) -> Value {
    let mut members = Vec::new();
    for (path, words) in listed {
        let mut names: Vec<Value> = Vec::new();
        for word in words.iter() {
            names.insert(random.below(names.len() + 1), string(word.name()));
        }
        members.push(member(path, Value::Array(names)));
    }
    Value::Object(members)
}

/// Words of a sheet that a value belongs to at least one of.
pub fn listing(random: &mut Random, value: &Value) -> Words {
    let held: Vec<Word> = held(value).iter().collect();
    // The narrowest stands last, but for arrays, where it stands first.
    let narrowest = if held.contains(&ARRAY) { held[0] } else { held[held.len() - 1] };
    let mut listed = words([if random.chance(70) { narrowest } else { random.pick(&held) }]);
    while random.chance(25) {
        listed = listed.and(words([listed_word(random)]));
    }
    listed
}

/// Any word that a sheet may list.
pub fn listed_word(random: &mut Random) -> Word {
    match any_word(random) {
        INSTANT => STRING,
        word => word,
    }
}

/// A record, and a sheet that it fits.
pub fn subject(random: &mut Random) -> (Listed, Value) {
    let record = values::record(random);
    let mut listed: Listed = Vec::new();
    let share = random.pick(&[30, 70, 100]);
    for (path, _) in values::paths(&record).into_iter().skip(1).take(24) {
        if random.chance(share) {
            let words = listing(random, at(&record, &path).expect("a path that leads to something"));
            listed.push((path, words));
        }
    }
    for _ in 0..random.pick(&[0, 0, 1, 1, 2]) {
        let path = random.pick(&["none", "a.none", "o.x", "l.7", "x.y.z", "s.t"]).to_string();
        if at(&record, &path).is_none() && listed.iter().all(|(other, _)| *other != path) {
            let word = listed_word(random);
            listed.push((path, words([NULL, word])));
        }
    }
    for last in (1..listed.len()).rev() {
        listed.swap(last, random.below(last + 1));
    }
    (listed, record)
}

/// What a path leads to in a record.
pub fn at<'a>(record: &'a Value, path: &str) -> Option<&'a Value> {
    path.split('.').try_fold(record, |value, fragment| match value {
        Value::Object(members) => members.iter().find(|(name, _)| name == fragment.as_bytes()).map(|(_, part)| part),
        Value::Array(items) => fragment.parse::<usize>().ok().and_then(|index| items.get(index)),
        _ => None,
    })
}

/// Puts a value at a path, if the path leads into something.
pub fn put(record: &mut Value, path: &str, new: Value) {
    let (first, rest) = path.split_once('.').map_or((path, None), |(first, rest)| (first, Some(rest)));
    let part = match record {
        Value::Object(members) => match members.iter().position(|(name, _)| name == first.as_bytes()) {
            Some(found) => &mut members[found].1,
            None if rest.is_none() => {
                members.push(member(first, new));
                return;
            }
            None => return,
        },
        Value::Array(items) => match first.parse::<usize>().ok().and_then(|index| items.get_mut(index)) {
            Some(item) => item,
            None => return,
        },
        _ => return,
    };
    match rest {
        Some(rest) => put(part, rest, new),
        None => *part = new,
    }
}

/// A value that belongs to a word.
pub fn of_word(random: &mut Random, word: Word) -> Value {
    let count = random.pick(&[0, 1, 2, 3, 5]);
    match word {
        NULL => Value::Null,
        BOOLEAN => Value::Boolean(random.chance(50)),
        INTEGER => integer(any_integer(random)),
        STRING if random.chance(30) => values::of_kind(random, Kind::Uvci, 0),
        STRING => string(&any_string(random)),
        DATE => good_date(random),
        DAY => good_day(random),
        INTEGERS => Value::Array((0..count).map(|_| integer(any_integer(random))).collect()),
        STRINGS => values::of_kind(random, Kind::Strings, 1),
        ARRAY => values::of_kind(random, Kind::Array, 2),
        OBJECT => values::of_kind(random, Kind::Object, 2),
        _ => Value::Null,
    }
}

/// Texts that nearly are a day or a date, and some that are.
#[rustfmt::skip]
const NEAR_DATES: [&str; 26] = [
    "2020", "2020-02", "2020-02-29", "2021-02-29", "2020-02-30", "2020-13", "2020-00-01", "2020-1-1", "020", "02020",
    "2020-01-01T00:00:00", "2020-01-01T00:00:00Z", "2020-01-01t00:00:00Z", "2020-01-01T24:00:00Z", "2020-01-01T00:00Z",
    "2020-01-01T00:00:00.123456789+1", "2020-01-01T00:00:00.1234567890Z", "2020-01-01T00:00:00.Z", "0000", "9999-12",
    "0000-01-01T00:00:00+0", "9999-12-31T23:59:59Z", "2020-01-01T00:00:00+24", " 2020", "2020 ",
    "2020-03-02T00:00:00.000Z",
];

/// Texts of a date form whose instant is out of range.
const OUT_OF_RANGE: [&str; 4] =
    ["0000-01-01T00:00:00+1", "0000-01-01T00:00:00+00:01", "9999-12-31T23:59:59-1", "9999-12-31T23:59:59.999-00:01"];

/// A value that nearly belongs to a word, or does.
pub fn near_word(random: &mut Random, word: Word) -> Value {
    let odd_item = |random: &mut Random| match random.below(6) {
        0 => Value::Null,
        1 => Value::Boolean(true),
        2 => string("1"),
        3 => integer(1),
        4 => Value::Array(vec![]),
        _ => string("2020"),
    };
    match word {
        DATE | DAY | STRING if random.chance(20) => string(random.pick(&OUT_OF_RANGE)),
        DATE | DAY | STRING => string(random.pick(&NEAR_DATES)),
        INTEGERS | STRINGS | ARRAY => {
            let mut value = of_word(random, word);
            if let Value::Array(items) = &mut value {
                let at = random.pick(&[0, items.len(), items.len() / 2]);
                items.insert(at, odd_item(random));
            }
            value
        }
        NULL | OBJECT => match random.below(5) {
            0 => Value::Null,
            1 => Value::Object(vec![]),
            2 => Value::Array(vec![]),
            3 => string(""),
            _ => Value::Boolean(false),
        },
        _ => odd_item(random),
    }
}

/// Changes a record at a listed path: to another value that fits, to one that nearly does, to any, or away.
pub fn change(random: &mut Random, listed: &Listed, record: &mut Value) {
    if listed.is_empty() || random.chance(5) {
        *record = values::record(random);
        return;
    }
    let (path, words) = &listed[random.below(listed.len())];
    let word = random.pick(&words.iter().collect::<Vec<_>>());
    let new = match random.below(6) {
        0..=2 => of_word(random, word),
        3 => near_word(random, word),
        4 => {
            let any = listed_word(random);
            of_word(random, any)
        }
        _ => Value::Null,
    };
    put(record, path, new);
}

/// Makes a sheet into something that is most often none.
pub fn misshape(random: &mut Random, sheet: &mut Value) {
    let members = match sheet {
        Value::Object(members) if !members.is_empty() && random.chance(92) => members,
        _ => {
            let members = vec![member("a", Value::Array(vec![string("null")]))];
            *sheet = match random.below(6) {
                0 => Value::Array(vec![]),
                1 => Value::Array(vec![Value::Object(members)]),
                2 => Value::Null,
                3 => string("integer"),
                4 => Value::Array(vec![string("integer")]),
                _ => integer(0),
            };
            return;
        }
    };
    let at = random.pick(&[0, members.len() - 1, members.len() / 2]);
    let (name, content) = &mut members[at];
    let text = String::from_utf8_lossy(name).into_owned();
    match (random.below(9), &mut *content) {
        (0, _) => *name = Vec::new(),
        (1, _) => *name = random.pick(&[".", "..", "a.", ".a", "a..b"]).as_bytes().to_vec(),
        (2, _) => *name = random.pick(&["{}.", ".{}", "{}..x"]).replace("{}", &text).into_bytes(),
        (3, _) => *content = Value::Array(vec![]),
        (4, Value::Array(words)) if !words.is_empty() => {
            let again = words[random.below(words.len())].clone();
            words.insert(random.below(words.len() + 1), again);
        }
        (5, Value::Array(words)) => {
            let odd: &[&str] = &["instant", "Integer", "number", "", "integer ", "bool", "any", "int", "INTEGERS"];
            words.insert(random.below(words.len() + 1), string(random.pick(odd)));
        }
        (6, Value::Array(words)) => {
            let odd = random.below(4);
            let item =
                [Value::Null, integer(1), Value::Array(vec![string("null")]), Value::Object(vec![])][odd].clone();
            words.insert(random.below(words.len() + 1), item);
        }
        (7, Value::Array(words)) if !words.is_empty() => *content = words[0].clone(),
        _ => *content = random_content(random),
    }
}

fn random_content(random: &mut Random) -> Value {
    match random.below(6) {
        0 => Value::Null,
        1 => Value::Object(vec![]),
        2 => Value::Object(vec![member("null", Value::Boolean(true))]),
        3 => string("null integer"),
        4 => Value::Array(vec![Value::Array(vec![string("null"), string("integer")])]),
        _ => Value::Boolean(true),
    }
}

/// A sheet of about 256 members, and a record of as many.
pub fn long(random: &mut Random) -> (Listed, Value) {
    let members = random.pick(&[200, 254, 255, 256, 256, 256, 257, 257, 258, 300]);
    let before = random.pick(&["", "n", "m.x", "a long beginning of all names "]);
    let (mut listed, mut made) = (Vec::new(), Vec::new());
    for at in 0..members {
        let small = random.pick(&[NULL, BOOLEAN, INTEGER, STRING, DATE, DAY]);
        let word = if random.chance(95) { small } else { listed_word(random) };
        let extra = if random.chance(10) { listed_word(random) } else { word };
        listed.push((format!("{}{}", before, at), words([word, extra])));
        made.push(member(&format!("{}{}", before, at), of_word(random, word)));
    }
    if before == "m.x" {
        let inner = made.into_iter().map(|(name, part)| (name[2..].to_vec(), part)).collect();
        made = vec![member("m", Value::Object(inner))];
    }
    let mut record = Value::Object(made);
    if random.chance(50) {
        let last = listed.len() - 1;
        let chosen = vec![listed[random.pick(&[0, last, last / 2])].clone()];
        change(random, &chosen, &mut record);
    }
    (listed, record)
}
