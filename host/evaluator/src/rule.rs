//! The shape of a rule.

use crate::dates::Unit;
use crate::form::{Content, Row};
use crate::value::Value;

#[derive(Debug)]
pub struct Rule {
    /// Its place: the row of its value.
    pub row: usize,
    /// That of its operation, or `LITERAL` or `ARRAY`.
    pub name: &'static str,
    pub body: Body,
}

#[derive(Debug)]
pub enum Body {
    Literal(Value),
    Array(Vec<Rule>),
    /// The fragments of the path.
    Var(Vec<Vec<u8>>),
    Operation(Operation, Vec<Rule>),
}

#[derive(Clone, Copy, Debug, PartialEq, Eq)]
pub enum Operation {
    If,
    Reduce,
    Equal,
    In,
    Plus,
    And,
    /// On integers.
    Compare(Order),
    /// On instants.
    CompareDates(Order),
    Not,
    DateOfBirth,
    PlusTime(i64, Unit),
    ExtractFromUvci(i64),
}

#[derive(Clone, Copy, Debug, PartialEq, Eq)]
pub enum Order {
    Greater,
    Less,
    GreaterOrEqual,
    LessOrEqual,
}

/// What an operation has beside its name.
#[derive(Clone, Copy)]
enum Operands {
    Path,
    /// Rules, at least and at most so many.
    Rules(usize, usize, Operation),
    /// A rule, an integer and a unit.
    AmountAndUnit,
    /// A rule and an integer.
    Index,
}

/// Document 01's table.
const OPERATIONS: [(&str, Operands); 19] = {
    use Operands::*;
    use Operation::*;
    use Order::*;
    [
        ("var", Path),
        ("if", Rules(3, 3, If)),
        ("reduce", Rules(3, 3, Reduce)),
        ("===", Rules(2, 2, Equal)),
        ("in", Rules(2, 2, In)),
        ("+", Rules(2, 2, Plus)),
        ("and", Rules(2, usize::MAX, And)),
        (">", Rules(2, 3, Compare(Greater))),
        ("<", Rules(2, 3, Compare(Less))),
        (">=", Rules(2, 3, Compare(GreaterOrEqual))),
        ("<=", Rules(2, 3, Compare(LessOrEqual))),
        ("after", Rules(2, 3, CompareDates(Greater))),
        ("before", Rules(2, 3, CompareDates(Less))),
        ("not-after", Rules(2, 3, CompareDates(LessOrEqual))),
        ("not-before", Rules(2, 3, CompareDates(GreaterOrEqual))),
        ("!", Rules(1, 1, Not)),
        ("dccDateOfBirth", Rules(1, 1, DateOfBirth)),
        ("plusTime", AmountAndUnit),
        ("extractFromUVCI", Index),
    ]
};

const UNITS: [(&str, Unit); 4] =
    [("year", Unit::Year), ("month", Unit::Month), ("day", Unit::Day), ("hour", Unit::Hour)];

pub const LITERAL: &str = "literal";
pub const ARRAY: &str = "array";

/// The names that rules have: of literals, of arrays, of each operation.
pub fn names() -> impl Iterator<Item = &'static str> {
    [LITERAL, ARRAY].into_iter().chain(OPERATIONS.iter().map(|(name, _)| *name))
}

impl Rule {
    /// The rule that a value is, if it is one.
    pub fn of_row(row: Row) -> Option<Rule> {
        let (name, body) = match row.content() {
            Content::Null => return None,
            Content::Boolean(_) | Content::Integer(_) | Content::String(_) => {
                (LITERAL, Body::Literal(Value::of_row(row)))
            }
            Content::Array => (ARRAY, Body::Array(rules(row.parts())?)),
            Content::Object => {
                let member = only(row.parts())?;
                let is_named = |(name, _): &&(&str, Operands)| name.as_bytes() == member.name();
                let &(name, operands) = OPERATIONS.iter().find(is_named)?;
                (name, body(operands, member)?)
            }
        };
        Some(Rule { row: row.number, name, body })
    }
}

fn only<T>(mut parts: impl Iterator<Item = T>) -> Option<T> {
    parts.next().filter(|_| parts.next().is_none())
}

fn rules<'a>(mut rows: impl Iterator<Item = Row<'a>>) -> Option<Vec<Rule>> {
    rows.try_fold(Vec::new(), |mut rules, row| {
        rules.push(Rule::of_row(row)?);
        Some(rules)
    })
}

/// The body of an operation with these operands, if the member's content is such.
fn body(operands: Operands, content: Row) -> Option<Body> {
    if let Operands::Path = operands {
        return path(content).map(Body::Var);
    }
    let given: Vec<Row> = match content.content() {
        Content::Array => content.parts().collect(),
        _ => return None,
    };
    let (operation, rows) = match (operands, &given[..]) {
        (Operands::Rules(least, most, operation), _) => {
            (operation, Some(&given[..]).filter(|given| (least..=most).contains(&given.len()))?)
        }
        (Operands::AmountAndUnit, [rule @ .., amount, unit]) if rule.len() == 1 => {
            (Operation::PlusTime(integer(*amount)?, self::unit(*unit)?), rule)
        }
        (Operands::Index, [rule @ .., index]) if rule.len() == 1 => {
            (Operation::ExtractFromUvci(integer(*index)?), rule)
        }
        _ => return None,
    };
    rules(rows.iter().copied()).map(|rules| Body::Operation(operation, rules))
}

fn path(row: Row) -> Option<Vec<Vec<u8>>> {
    match row.content() {
        Content::String(path) => fragments(path),
        _ => None,
    }
}

/// The fragments of a path: none of the empty one, else some that are not empty, parted by dots.
pub fn fragments(path: &[u8]) -> Option<Vec<Vec<u8>>> {
    if path.is_empty() {
        return Some(Vec::new());
    }
    let fragments = path.split(|&byte| byte == b'.').map(<[u8]>::to_vec).collect::<Vec<_>>();
    Some(fragments).filter(|fragments| fragments.iter().all(|fragment| !fragment.is_empty()))
}

fn integer(row: Row) -> Option<i64> {
    match row.content() {
        Content::Integer(integer) => Some(integer),
        _ => None,
    }
}

fn unit(row: Row) -> Option<Unit> {
    match row.content() {
        Content::String(word) => UNITS.iter().find(|(name, _)| name.as_bytes() == word).map(|(_, unit)| *unit),
        _ => None,
    }
}

#[cfg(test)]
mod tests {
    use super::*;

    fn is_rule(text: &str) -> bool {
        Rule::of_row(Row::root(&reader::judge(text.as_bytes()).unwrap())).is_some()
    }

    #[test]
    fn literals_arrays_and_objects() {
        for text in ["true", "0", "\"\"", "[]", "[1,[\"a\",[]]]"] {
            assert!(is_rule(text), "{}", text);
        }
        for text in ["null", "[null]", "{}", r#"{"a":1}"#, r#"{"!":[1],"+":[1,2]}"#, r#"{"!":[1],"a":[]}"#, "[{}]"] {
            assert!(!is_rule(text), "{}", text);
        }
    }

    #[test]
    fn numbers_of_operands() {
        for (name, operands) in OPERATIONS {
            let (least, most) = match operands {
                Operands::Rules(least, most, _) => (least, most),
                _ => (1, 0),
            };
            for count in 0..6 {
                let text = format!("{{\"{}\":[{}]}}", name, vec!["1"; count].join(","));
                let expected = (least..=most).contains(&count) || (name, count) == ("extractFromUVCI", 2);
                assert_eq!(is_rule(&text), expected, "{}", text);
                assert!(!is_rule(&text.replace('1', "null")) || count == 0, "{}", text);
            }
            for bare in ["1", "{}", "null", "\"a\"", "true"] {
                let text = format!("{{\"{}\":{}}}", name, bare);
                assert_eq!(is_rule(&text), name == "var" && bare == "\"a\"", "{}", text);
            }
        }
    }

    #[test]
    fn bare_integers_and_units() {
        for (text, expected) in [
            (r#"{"plusTime":[[],-1,"year"]}"#, true),
            (r#"{"plusTime":["a",0,"month"]}"#, true),
            (r#"{"plusTime":["a",9007199254740991,"day"]}"#, true),
            (r#"{"plusTime":["a",0,"\u0068our"]}"#, true),
            (r#"{"plusTime":["a",0,"minute"]}"#, false),
            (r#"{"plusTime":["a",0,"Day"]}"#, false),
            (r#"{"plusTime":["a",0,"days"]}"#, false),
            (r#"{"plusTime":["a",0,["day"]]}"#, false),
            (r#"{"plusTime":["a","0","day"]}"#, false),
            (r#"{"plusTime":["a",[0],"day"]}"#, false),
            (r#"{"plusTime":["a",{"+":[0,0]},"day"]}"#, false),
            (r#"{"plusTime":["a",0]}"#, false),
            (r#"{"plusTime":["a",0,"day",0]}"#, false),
            (r#"{"plusTime":[0,"day"]}"#, false),
            (r#"{"plusTime":[null,0,"day"]}"#, false),
            (r#"{"extractFromUVCI":["a",-1]}"#, true),
            (r#"{"extractFromUVCI":[null,0]}"#, false),
            (r#"{"extractFromUVCI":["a","0"]}"#, false),
            (r#"{"extractFromUVCI":["a",true]}"#, false),
            (r#"{"extractFromUVCI":["a",0,0]}"#, false),
            (r#"{"extractFromUVCI":[0]}"#, false),
        ] {
            assert_eq!(is_rule(text), expected, "{}", text);
        }
    }

    #[test]
    fn paths() {
        for (path, expected) in [
            ("", true),
            ("a", true),
            ("a.b.0", true),
            (" ", true),
            ("\\u0061\\u002eb", true),
            (".", false),
            ("a.", false),
            (".a", false),
            ("a..b", false),
            ("\\u002e", false),
        ] {
            assert_eq!(is_rule(&format!("{{\"\\u0076ar\":\"{}\"}}", path)), expected, "{}", path);
            assert!(!is_rule(&format!("{{\"var\":[\"{}\"]}}", path)));
        }
    }
}
