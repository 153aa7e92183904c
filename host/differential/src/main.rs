//! The C library against the independent reader and viewer. Of reading: the same refusal, place and bytes of both areas,
//! on the cases and texts of `vectors/`, on all small texts of some forms, and on random texts, whole and damaged. Of
//! viewing: the same answers and numbers of the five entries at every place, on tables that were read, on damaged ones,
//! and on such as no text has.
//!
//!     differential [--seed N] [--cases N]   so many random texts, made from this seed, and a tenth as many tables
//!     differential --one N                  the random text and the table of this number alone, as a difference names it
//!     differential --say                    also prints the number of each random text and table before the call
//!     differential --self-test              viewers with a slip each in place of the library: every slip must be noticed
//!
//! On a difference it prints the text or table, a shorter one that differs too, and what differs. It counts how often
//! each class of random texts was met, and each feature of tables; one that was met too rarely fails. The last line is
//! 'N passed, M failed': one for each group of texts, one for each class of texts, one for each class of tables, one for
//! each feature of tables.

mod compare;

use compare::{answer, compare, Library, STATED};
use differential::tables::Case;
use differential::{damage, generate, run, small, view};
use harness::arguments::Arguments;
use harness::lend::{Comparer, Lent};
use harness::random::Random;
use harness::report::{report, Group};
use harness::trial::{self, escaped, numbers, shortened};
use reader::{cases, judge, Fault, Form, Why};
use std::collections::{BTreeMap, HashSet};

const COUNT: usize = 200_000; // random texts
const TEXTS_A_TABLE: usize = COUNT / run::CASES; // random texts for each table
const LEAST: usize = 1_400; // of each class, among so many random texts
const SHOWN: usize = 5; // differences that are printed

/// Features of texts that read, each to be met often.
type Feature = (&'static str, fn(&[u8], &Form) -> bool);
const FEATURES: [Feature; 18] = [
    ("an escape \\uXXXX", |text, _| has(text, b"\\u")),
    ("a short escape", |text, _| text.windows(2).any(|two| two[0] == b'\\' && two[1] != b'u')),
    ("an escaped surrogate pair", |text, form| {
        has(text, b"\\u") && form.strings.iter().any(|&b| b >= 0xf0) && !text.iter().any(|&b| b >= 0xf0)
    }),
    ("a raw character of 2 bytes", |text, _| text.iter().any(|b| (0xc2..=0xdf).contains(b))),
    ("a raw character of 3 bytes", |text, _| text.iter().any(|b| (0xe0..=0xef).contains(b))),
    ("a raw character of 4 bytes", |text, _| text.iter().any(|b| *b >= 0xf0)),
    ("a decoded U+0000", |_, form| form.strings.contains(&0)),
    ("white space", |text, _| text.iter().any(|b| b" \t\n\r".contains(b))),
    ("a largest integer", |_, form| {
        form.rows.iter().any(|row| row[0] % 256 == 4 && (row[2..] == [1, 0] || row[2..] == [u32::MAX, 0x3f_ffff]))
    }),
    ("-0", |text, _| text.windows(3).any(|three| three[0] == b'-' && three[1] == b'0') || text == b"-0"),
    ("an empty string or name", |text, _| has(text, b"\"\"")),
    ("nesting of 32", |_, form| nesting(form) == reader::MAX_NESTING),
    ("1,000 values or more", |_, form| form.rows.len() >= 1000),
    ("exactly 1,024 values", |_, form| form.rows.len() == reader::MAX_VALUES),
    ("exactly 16,384 bytes", |text, _| text.len() == reader::MAX_TEXT_BYTES),
    ("16,000 bytes of strings or more", |_, form| form.strings.len() >= 16_000),
    ("an object of 20 members or more", |_, form| form.rows.iter().any(|row| row[0] % 256 == 7 && row[2] >= 20)),
    ("an object of 200 members or more", |_, form| form.rows.iter().any(|row| row[0] % 256 == 7 && row[2] >= 200)),
];

fn has(text: &[u8], piece: &[u8]) -> bool {
    text.windows(piece.len()).any(|window| window == piece)
}

/// The deepest nesting: how many rows with a later end enclose a container, at most.
fn nesting(form: &Form) -> usize {
    let mut ends: Vec<usize> = Vec::new();
    let mut deepest = 0;
    for (at, row) in form.rows.iter().enumerate() {
        ends.retain(|&end| end > at);
        if row[0] % 256 >= 6 {
            ends.push(row[3] as usize);
            deepest = deepest.max(ends.len());
        }
    }
    deepest
}

#[derive(Default)]
struct Run {
    /// What was tried; the last one is the current one.
    groups: Vec<Group>,
    /// How often each class of random texts was met.
    classes: BTreeMap<String, usize>,
    differences: usize,
}

impl Run {
    /// Compares one text of the current group; prints a difference.
    fn try_text(
        &mut self,
        comparer: &mut Comparer,
        text: &[u8],
        lent: &Lent,
        origin: &dyn Fn() -> String,
    ) -> Result<Form, Fault> {
        let judged = judge(text);
        let difference = compare(comparer, text, &judged, lent);
        let group = self.groups.last_mut().unwrap();
        group.inputs += 1;
        if let Some(said) = difference {
            group.differences += 1;
            self.differences += 1;
            if self.differences <= SHOWN {
                let said_of = |comparer: &mut Comparer, text: &[u8]| compare(comparer, text, &judge(text), lent);
                let short = &shortened(vec![text.to_vec()], |texts| said_of(comparer, &texts[0]).is_some())[0];
                let said_of_short = said_of(comparer, short).unwrap_or_default();
                println!("DIFFERENCE in {}: {}\n  text     {}", origin(), said, escaped(text));
                println!("  shorter  {}\n  there    {}\n  areas    {:?}", escaped(short), said_of_short, lent);
            }
        }
        judged
    }

    fn begin(&mut self, name: &str) {
        self.groups.push(Group { name: name.to_string(), inputs: 0, differences: 0 });
    }

    fn met(&mut self, class: &str) {
        *self.classes.entry(class.to_string()).or_default() += 1;
    }

    fn count(&mut self, text: &[u8], lent: &Lent, judged: &Result<Form, Fault>) {
        match lent.short(&STATED).collect::<Vec<_>>()[..] {
            [] => {}
            [0] => return self.met("1 table short"),
            [1] => return self.met("1 strings short"),
            _ => return self.met("1 both areas short"),
        }
        match judged {
            Err(fault) => self.met(&class(fault.why)),
            Ok(form) => {
                self.met("0 read");
                for (name, holds) in FEATURES {
                    if holds(text, form) {
                        self.met(&format!("0 read, with {}", name));
                    }
                }
                if lent.is_longer(&STATED) {
                    self.met("0 read, with areas larger than stated");
                }
            }
        }
        if judged.is_err() && lent.is_longer(&STATED) {
            self.met("2 to 5, with areas larger than stated");
        }
    }
}

fn class(why: Why) -> String {
    format!("{} {:?}", why.refusal(), why)
}

/// All classes that are to be met.
fn classes() -> Vec<String> {
    let mut all: Vec<String> =
        ["0 read", "0 read, with areas larger than stated", "1 both areas short", "1 table short", "1 strings short"]
            .iter()
            .map(|name| name.to_string())
            .collect();
    all.extend(FEATURES.iter().map(|(name, _)| format!("0 read, with {}", name)));
    all.extend(Why::ALL.iter().map(|&why| class(why)));
    all.push("2 to 5, with areas larger than stated".to_string());
    all.sort();
    all
}

/// The random text of a number, with its areas.
fn random_text(number: u64) -> (Vec<u8>, Lent) {
    let mut random = Random::new(number);
    let mut text = generate::text(&mut random);
    if random.chance(45) {
        damage::damage(&mut random, &mut text);
    }
    (text, Lent::new(&mut random, &STATED, &[]))
}

/// What vectors/ holds: cases of `read` with what they expect, then every text.
fn try_vectors(run: &mut Run, comparer: &mut Comparer) {
    let mut random = Random::new(1);
    let all = cases::all();
    run.begin("cases of reading in vectors/");
    for case in all.iter().filter(|case| case.entry == "read") {
        let lent = Lent::sized(&mut random, vec![case.table, case.strings]);
        let _ = run.try_text(comparer, &case.texts[0].1, &lent, &|| case.id.clone());
        let group = run.groups.last_mut().unwrap();
        if group.differences == 0 {
            if let Err(fault) = case.check(&answer(comparer)) {
                println!("DIFFERENCE in {}: {}", case.id, fault);
                group.differences += 1;
            }
        }
    }
    run.begin("texts of vectors/");
    let mut seen = HashSet::new();
    for case in &all {
        for (name, text) in case.texts.iter().filter(|(_, text)| seen.insert(text.clone())) {
            let lent = Lent::new(&mut random, &STATED, &[]);
            let _ = run.try_text(comparer, text, &lent, &|| format!("{}, {}", case.id, name));
        }
    }
}

fn try_small(run: &mut Run, comparer: &mut Comparer) {
    let mut random = Random::new(2);
    for (name, make) in small::FORMS {
        run.begin(name);
        make(&mut |text| {
            let lent = Lent::new(&mut random, &STATED, &[]);
            let _ = run.try_text(comparer, text, &lent, &|| name.to_string());
        });
    }
}

fn try_random(run: &mut Run, comparer: &mut Comparer, numbers: impl Iterator<Item = u64>, say: bool) {
    run.begin("random texts");
    for number in numbers {
        if say {
            eprintln!("--one {}", number);
        }
        let (text, lent) = random_text(number);
        let judged = run.try_text(comparer, &text, &lent, &|| format!("the random text --one {}", number));
        run.count(&text, &lent, &judged);
    }
}

/// Reading; gives the passed and the failed.
fn read_texts(given: &Arguments) -> (usize, usize) {
    let mut run = Run::default();
    let mut comparer = Comparer::new();
    let least = if let Some(number) = given.one {
        println!("{}", escaped(&random_text(number).0));
        try_random(&mut run, &mut comparer, std::iter::once(number), given.say);
        None
    } else {
        try_vectors(&mut run, &mut comparer);
        try_small(&mut run, &mut comparer);
        try_random(&mut run, &mut comparer, numbers(given.seed, given.cases), given.say);
        Some(LEAST).filter(|_| given.cases >= COUNT)
    };
    let tally = report(&run.groups, &run.classes, &classes(), least);
    println!("{} texts", run.groups.iter().map(|group| group.inputs).sum::<usize>());
    tally
}

/// Viewing; gives the passed and the failed.
fn view_tables(given: &Arguments) -> (usize, usize) {
    let mut comparer = view::Comparer::new();
    let plan = run::plan();
    let least = Some(plan.least).filter(|_| given.one.is_none() && given.cases >= COUNT);
    let chosen: Vec<u64> = match given.one {
        Some(number) => vec![number],
        None => numbers(given.seed, given.cases / TEXTS_A_TABLE).collect(),
    };
    let compare = &mut |case: &Case| comparer.compare(case, &mut Library);
    let tally = trial::run(&plan, chosen.into_iter(), least, given.say, compare);
    println!("{} answers of the viewer", comparer.answers);
    tally
}

fn main() {
    let given = Arguments::of("differential", 20_261_115, COUNT);
    if given.self_test {
        given.finish(run::self_test(given.seed, given.cases / TEXTS_A_TABLE));
    }
    let (texts, tables) = (read_texts(&given), view_tables(&given));
    given.finish((texts.0 + tables.0, texts.1 + tables.1))
}
