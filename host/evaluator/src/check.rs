//! The kind check: the words of a rule under a sheet.

use crate::dates;
use crate::rule::{Body, Operation, Rule};
use crate::sheet::Sheet;
use crate::value::Value;
use crate::words::*;

/// What `var` leads to.
#[derive(Clone, Copy)]
enum Scope<'a> {
    Sheet(&'a Sheet),
    Lambda { current: Words, accumulator: Words },
}

/// The words found for a rule under a sheet, if the check passes.
pub fn check(rule: &Rule, sheet: &Sheet) -> Option<Words> {
    Scope::Sheet(sheet).check(rule)
}

impl Scope<'_> {
    fn check(self, rule: &Rule) -> Option<Words> {
        match &rule.body {
            Body::Literal(value) => Some(words([literal(value)])),
            Body::Array(items) => self.check_all(items).map(|items| words([array(&items)])),
            Body::Var(path) => Some(self.var(path)),
            Body::Operation(Operation::Reduce, operands) => self.reduce(operands),
            Body::Operation(operation, operands) => given(*operation, &self.check_all(operands)?),
        }
    }

    fn check_all(self, rules: &[Rule]) -> Option<Vec<Words>> {
        rules.iter().map(|rule| self.check(rule)).collect()
    }

    fn var(self, path: &[Vec<u8>]) -> Words {
        let (current, accumulator) = match self {
            Scope::Sheet(sheet) => return sheet.words(path),
            Scope::Lambda { current, accumulator } => (current, accumulator),
        };
        match path.split_first() {
            None => words([OBJECT]),
            Some((first, rest)) => match (&first[..], rest.is_empty()) {
                (b"current", true) => current,
                (b"accumulator", true) => accumulator,
                (b"current" | b"accumulator", false) => any_value(),
                _ => words([NULL]),
            },
        }
    }

    fn reduce(self, operands: &[Rule]) -> Option<Words> {
        let list = allowed(self.check(&operands[0])?, words([ARRAY]))?;
        let initial = self.check(&operands[2])?;
        let lambda = Scope::Lambda { current: items(list), accumulator: initial };
        allowed(lambda.check(&operands[1])?, initial)?;
        Some(initial)
    }
}

/// The words of the items of arrays of these words.
pub fn items(arrays: Words) -> Words {
    let of_word = |word: Word| match word {
        INTEGERS => words([INTEGER]),
        STRINGS => words([STRING]),
        _ => any_value(),
    };
    arrays.iter().fold(Words::default(), |all, word| all.and(of_word(word)))
}

pub fn literal(value: &Value) -> Word {
    match value {
        Value::Boolean(_) => BOOLEAN,
        Value::Integer(_) => INTEGER,
        Value::String(text) if dates::read_day(text).is_ok() => DAY,
        Value::String(text) if dates::read_date(text).is_ok() => DATE,
        Value::String(_) => STRING,
        _ => unreachable!("a literal is a boolean, an integer or a string"),
    }
}

/// The word of an array rule whose items have these words.
pub fn array(items: &[Words]) -> Word {
    if items.iter().all(|item| *item == words([INTEGER])) {
        INTEGERS
    } else if items.iter().all(|item| item.pass(words([STRING]))) {
        STRINGS
    } else {
        ARRAY
    }
}

/// Words, if all of them pass.
fn allowed(words: Words, allowed: Words) -> Option<Words> {
    Some(words).filter(|words| words.pass(allowed))
}

/// The words that an operation gives on operands of these words, if it allows them.
fn given(operation: Operation, operands: &[Words]) -> Option<Words> {
    let all = |wanted: Words| operands.iter().all(|operand| operand.pass(wanted));
    let without_instant = || operands.iter().all(|operand| !operand.has(INSTANT));
    let union = |of: &[Words]| of.iter().fold(Words::default(), |all, words| all.and(*words));
    let (passes, gives) = match operation {
        Operation::If => (true, union(&operands[1..])),
        Operation::And => (without_instant(), union(operands)),
        Operation::Not => (without_instant(), words([BOOLEAN])),
        Operation::Equal => (all(scalars()), words([BOOLEAN])),
        Operation::In => (operands[0].pass(scalars()) && operands[1].pass(words([ARRAY])), words([BOOLEAN])),
        Operation::Plus => (all(words([INTEGER])), words([INTEGER])),
        Operation::Compare(_) => (all(words([INTEGER])), words([BOOLEAN])),
        Operation::CompareDates(_) => (all(words([INSTANT])), words([BOOLEAN])),
        Operation::PlusTime(..) => (all(words([DATE])), words([INSTANT])),
        Operation::DateOfBirth => (all(words([DAY])), words([INSTANT])),
        Operation::ExtractFromUvci(_) => (all(words([NULL, STRING])), words([NULL, STRING])),
        Operation::Reduce => unreachable!("a reduce has a lambda"),
    };
    Some(gives).filter(|_| passes)
}

#[cfg(test)]
mod tests {
    use super::*;
    use crate::form::Row;

    const SHEET: &str = r#"{"n":["null"],"b":["boolean"],"i":["integer"],"s":["string"],"t":["date"],"d":["day"],
        "is":["integers"],"ss":["strings"],"l":["array"],"o":["object"],"ni":["null","integer"],
        "isss":["integers","strings"],"td":["date","day"],"i.j":["boolean"],"current":["day"]}"#;

    /// The words under the sheet above, or "refused".
    fn found(rule: &str) -> String {
        let (rule_form, sheet_form) =
            (reader::judge(rule.as_bytes()).unwrap(), reader::judge(SHEET.as_bytes()).unwrap());
        let rule = Rule::of_row(Row::root(&rule_form)).unwrap();
        let sheet = Sheet::of_row(Row::root(&sheet_form)).unwrap();
        let names = |words: Words| words.iter().map(Word::name).collect::<Vec<_>>().join(" ");
        check(&rule, &sheet).map_or_else(|| "refused".to_string(), names)
    }

    fn each(cases: &[(&str, &str)]) {
        for (rule, expected) in cases {
            assert_eq!(found(rule), *expected, "{}", rule);
        }
    }

    const SIX: &str = "null boolean integer string array object";

    #[test]
    fn literals_and_arrays() {
        each(&[
            ("true", "boolean"),
            ("-7", "integer"),
            (r#""""#, "string"),
            (r#""2020""#, "day"),
            (r#""2020-02-29""#, "day"),
            (r#""2021-02-29""#, "string"),
            (r#""2020-01-01T00:00:00""#, "date"),
            (r#""0000-01-01T00:00:00+1""#, "string"),
            ("[]", "integers"),
            ("[[]]", "array"),
            (r#"[1,{"var":"i"},{"+":[1,2]}]"#, "integers"),
            (r#"["a",{"var":"d"},{"var":"td"}]"#, "strings"),
            (r#"[1,"a"]"#, "array"),
            (r#"[{"var":"ni"}]"#, "array"),
            (r#"[{"plusTime":["2020",1,"day"]}]"#, "array"),
            (r#"[{"+":[1,"a"]}]"#, "refused"),
        ]);
    }

    #[test]
    fn paths() {
        each(&[
            (r#"{"var":"i"}"#, "integer"),
            (r#"{"var":"i.j"}"#, "boolean"),
            (r#"{"var":"i.j.k"}"#, SIX),
            (r#"{"var":"ni"}"#, "null integer"),
            (r#"{"var":""}"#, SIX),
            (r#"{"var":"x"}"#, SIX),
            (r#"{"var":"current"}"#, "day"),
            (r#"{"var":"accumulator"}"#, SIX),
        ]);
    }

    #[test]
    fn operations() {
        each(&[
            (r#"{"if":[{"plusTime":["2020",1,"day"]},1,"a"]}"#, "integer string"),
            (r#"{"if":[{"+":["a",1]},1,"a"]}"#, "refused"),
            (r#"{"if":[1,{"+":["a",1]},"a"]}"#, "refused"),
            (r#"{"and":[{"var":"ni"},"2020",[]]}"#, "null integer day integers"),
            (r#"{"and":[1,{"plusTime":["2020",1,"day"]}]}"#, "refused"),
            (r#"{"!":[{"var":"o"}]}"#, "boolean"),
            (r#"{"!":[{"dccDateOfBirth":["2020"]}]}"#, "refused"),
            (r#"{"===":[{"var":"n"},{"var":"d"}]}"#, "boolean"),
            (r#"{"===":[{"var":"x"},1]}"#, "refused"),
            (r#"{"in":[{"var":"ni"},{"var":"isss"}]}"#, "boolean"),
            (r#"{"in":[{"var":"ni"},{"var":"s"}]}"#, "refused"),
            (r#"{"in":[[],[]]}"#, "refused"),
            (r#"{"+":[{"var":"i"},1]}"#, "integer"),
            (r#"{"+":[{"var":"ni"},1]}"#, "refused"),
            (r#"{">":[3,2,"x"]}"#, "refused"),
            (r#"{">":[3,2,1]}"#, "boolean"),
            (r#"{"after":[1,2]}"#, "refused"),
            (r#"{"after":[{"plusTime":[{"var":"td"},1,"day"]},{"dccDateOfBirth":[{"var":"d"}]}]}"#, "boolean"),
            (r#"{"plusTime":[{"var":"s"},1,"day"]}"#, "refused"),
            (r#"{"plusTime":[{"var":"t"},1,"day"]}"#, "instant"),
            (r#"{"dccDateOfBirth":[{"var":"t"}]}"#, "refused"),
            (r#"{"dccDateOfBirth":[{"var":"td"}]}"#, "refused"),
            (r#"{"extractFromUVCI":[{"var":"n"},1]}"#, "null string"),
            (r#"{"extractFromUVCI":[{"var":"td"},1]}"#, "null string"),
            (r#"{"extractFromUVCI":[{"var":"ni"},1]}"#, "refused"),
        ]);
    }

    #[test]
    fn lambdas() {
        each(&[
            (r#"{"reduce":[[1,2,3],{"+":[{"var":"current"},{"var":"accumulator"}]},0]}"#, "integer"),
            (r#"{"reduce":[{"var":"l"},{"+":[{"var":"current"},{"var":"accumulator"}]},0]}"#, "refused"),
            (r#"{"reduce":[{"var":"ss"},{"var":"current"},"2020"]}"#, "refused"),
            (r#"{"reduce":[{"var":"ss"},"2020","a"]}"#, "string"),
            (r#"{"reduce":[{"var":"isss"},{"if":[{"var":"current"},1,2]},3]}"#, "integer"),
            (r#"{"reduce":[{"var":"isss"},{"+":[{"var":"current"},1]},3]}"#, "refused"),
            (r#"{"reduce":[{"var":"s"},1,2]}"#, "refused"),
            (r#"{"reduce":[[],{"var":""},{"var":"o"}]}"#, "object"),
            (r#"{"reduce":[[],{"var":"i"},{"var":"n"}]}"#, "null"),
            (r#"{"reduce":[[],{"var":"current.a"},{"var":""}]}"#, "refused"),
            (r#"{"reduce":[[],[{"var":"current.a"}],{"var":""}]}"#, SIX),
            (r#"{"reduce":[[],{"!":[{"var":"current.a"}]},true]}"#, "refused"),
            (r#"{"reduce":[[[]],{"!":[{"var":"current"}]},true]}"#, "refused"),
            (r#"{"reduce":[[1],{"reduce":[["a"],{"var":"current"},{"var":"current"}]},1]}"#, "refused"),
            (r#"{"reduce":[["b"],{"reduce":[["a"],{"var":"current"},{"var":"current"}]},"x"]}"#, "string"),
        ]);
        // What a longer path has, an instant among it, as the initial of an inner one.
        let inner = |lambda: &str| format!(r#"{{"reduce":[["2020"],{},{{"var":"accumulator.a"}}]}}"#, lambda);
        for (lambda, expected) in [
            (r#"{"var":"current"}"#, "array"),
            (r#"{"dccDateOfBirth":["2020"]}"#, "array"),
            (r#"{"!":[{"var":"accumulator"}]}"#, "refused"),
        ] {
            assert_eq!(found(&format!(r#"{{"reduce":[[1],[{}],[[]]]}}"#, inner(lambda))), expected, "{}", lambda);
        }
    }
}
