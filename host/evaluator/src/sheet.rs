//! Sheets, and which records fit them.

use crate::form::{Content, Row};
use crate::rule;
use crate::value::Value;
use crate::words::{any_of_record, Word, Words};

pub const MAX_MEMBERS: usize = 256;

/// Each path that is listed, by its fragments, with its words.
#[derive(Debug)]
pub struct Sheet {
    listed: Vec<(Vec<Vec<u8>>, Words)>,
}

impl Sheet {
    /// The sheet that a value is, if it is one.
    pub fn of_row(row: Row) -> Option<Sheet> {
        let members: Vec<Row> = match row.content() {
            Content::Object => row.parts().collect(),
            _ => return None,
        };
        if members.len() > MAX_MEMBERS {
            return None;
        }
        let member = |member: &Row| Some((path(member.name())?, listed_words(*member)?));
        members.iter().map(member).collect::<Option<_>>().map(|listed| Sheet { listed })
    }

    pub fn listed(&self) -> &[(Vec<Vec<u8>>, Words)] {
        &self.listed
    }

    /// The words of a path outside lambdas.
    pub fn words(&self, path: &[Vec<u8>]) -> Words {
        let listed = self.listed.iter().find(|(listed, _)| listed == path);
        listed.map_or_else(any_of_record, |(_, words)| *words)
    }

    /// Whether a record's value at each path, null where missing, belongs to a listed word.
    pub fn fits(&self, record: &Value) -> bool {
        let at = |path: &[Vec<u8>]| path.iter().fold(record.clone(), |value, fragment| value.part(fragment));
        self.listed.iter().all(|(path, words)| words.hold(&at(path)))
    }
}

/// A path that is not empty.
fn path(name: &[u8]) -> Option<Vec<Vec<u8>>> {
    rule::fragments(name).filter(|fragments| !fragments.is_empty())
}

/// The words of an array that is not empty, each spelled once.
fn listed_words(row: Row) -> Option<Words> {
    let items: Vec<Row> = match row.content() {
        Content::Array => row.parts().collect(),
        _ => return None,
    };
    let word = |item: &Row| match item.content() {
        Content::String(spelled) => Word::of_sheet(spelled),
        _ => None,
    };
    let words = items.iter().map(word).collect::<Option<Vec<Word>>>()?;
    let distinct: Words = words.iter().copied().collect();
    Some(distinct).filter(|distinct| !words.is_empty() && distinct.iter().count() == words.len())
}

#[cfg(test)]
mod tests {
    use super::*;

    fn of_text<T>(text: &str, of: impl Fn(Row) -> T) -> T {
        of(Row::root(&reader::judge(text.as_bytes()).unwrap()))
    }

    #[test]
    fn shapes() {
        for (text, expected) in [
            ("{}", true),
            (r#"{"a":["null"]}"#, true),
            (r#"{"a.b.0":["integers","strings"],"a":["object","day"]}"#, true),
            (r#"{"\u0061":["\u006eull"]}"#, true),
            (r#"{"a":["null","boolean","integer","string","date","day","integers","strings","array","object"]}"#, true),
            ("null", false),
            ("[]", false),
            ("\"a\"", false),
            (r#"{"":["null"]}"#, false),
            (r#"{"a.":["null"]}"#, false),
            (r#"{".":["null"]}"#, false),
            (r#"{"a..b":["null"]}"#, false),
            (r#"{"a":[]}"#, false),
            (r#"{"a":"null"}"#, false),
            (r#"{"a":["null","null"]}"#, false),
            (r#"{"a":["null","\u006eull"]}"#, false),
            (r#"{"a":["instant"]}"#, false),
            (r#"{"a":["Null"]}"#, false),
            (r#"{"a":["number"]}"#, false),
            (r#"{"a":[""]}"#, false),
            (r#"{"a":[null]}"#, false),
            (r#"{"a":[["null"]]}"#, false),
            (r#"{"a":["null",1]}"#, false),
            (r#"{"a":["null"],"b":{}}"#, false),
        ] {
            assert_eq!(of_text(text, |row| Sheet::of_row(row).is_some()), expected, "{}", text);
        }
        for (count, expected) in [(255, true), (256, true), (257, false), (300, false)] {
            let members: Vec<String> = (0..count).map(|at| format!("\"m{}\":[\"null\"]", at)).collect();
            assert_eq!(
                of_text(&format!("{{{}}}", members.join(",")), |row| Sheet::of_row(row).is_some()),
                expected,
                "{}",
                count
            );
        }
    }

    #[test]
    fn fitting() {
        for (sheet, record, expected) in [
            ("{}", "5", true),
            (r#"{"a":["null"]}"#, "5", true),
            (r#"{"a":["null"]}"#, "{}", true),
            (r#"{"a":["integer"]}"#, "{}", false),
            (r#"{"a":["integer","null"]}"#, r#"{"a":null}"#, true),
            (r#"{"a":["integer"],"b":["day"]}"#, r#"{"b":"2020-02","a":1}"#, true),
            (r#"{"a":["integer"],"b":["day"]}"#, r#"{"b":"2020-02-30","a":1}"#, false),
            (r#"{"a.0.b":["strings"]}"#, r#"{"a":[{"b":["x"]}]}"#, true),
            (r#"{"a.00.b":["strings"]}"#, r#"{"a":[{"b":["x"]}]}"#, false),
            (r#"{"a.00.b":["strings"]}"#, r#"{"a":{"00":{"b":[]}}}"#, true),
            (r#"{"0":["object"]}"#, "[{}]", true),
            (r#"{"a":["object"],"a.b":["boolean"]}"#, r#"{"a":{"b":false}}"#, true),
            (r#"{"a":["object"],"a.b":["boolean"]}"#, r#"{"a":{"b":0}}"#, false),
        ] {
            let fits = of_text(sheet, |sheet| {
                let sheet = Sheet::of_row(sheet).unwrap();
                of_text(record, |record| sheet.fits(&Value::of_row(record)))
            });
            assert_eq!(fits, expected, "{} {}", sheet, record);
        }
    }
}
