//! Runs cases on an implementation and counts; or on some with a slip each, all of which are to be noticed.

use crate::arguments::Arguments;
use crate::random::Random;
use crate::report::{report, Group};
use std::collections::BTreeMap;
use std::time::{Duration, Instant};

const SHOWN: usize = 5; // differences that are printed
const LONGEST_SHOWN: usize = 2_000; // bytes of a text that are printed
const TRIES: usize = 20_000; // to make a case shorter

/// A case that can be shown.
pub trait Shown {
    /// The name of its class.
    fn class(&self) -> &'static str;
    /// As one can look at it.
    fn describe(&self) -> String;
}

/// A case of texts.
pub trait Case: Shown + Sized {
    fn texts(&self) -> Vec<Vec<u8>>;
    /// The same with other texts.
    fn with(&self, texts: Vec<Vec<u8>>) -> Self;
    /// What it meets, of the features that are to be met.
    fn met(&self) -> Vec<String>;
}

/// What is run.
pub struct Plan<C> {
    /// The names of the classes.
    pub classes: Vec<&'static str>,
    /// What is to be met.
    pub features: Vec<String>,
    /// Cases that a run has if not told otherwise.
    pub cases: usize,
    /// Of so many, how often each feature is met at least.
    pub least: usize,
    /// The case of a number.
    pub case: fn(u64) -> C,
    /// Stored cases, each with its name, which a whole run has too.
    pub stored: fn() -> Vec<(String, C)>,
}

/// Runs what a program is told to run, from this seed if not told otherwise; ends the program.
pub fn program<C: Case>(
    name: &str,
    seed: u64,
    plan: &Plan<C>,
    compare: &mut Compare<C>,
    self_test: fn(seed: u64, cases: usize) -> (usize, usize),
) -> ! {
    let given = Arguments::of(name, seed, plan.cases);
    let least = Some(plan.least).filter(|_| given.cases >= plan.cases);
    given.finish(match given.one {
        _ if given.self_test => self_test(given.seed, given.cases),
        Some(number) => {
            println!("{}", (plan.case)(number).describe());
            run(plan, std::iter::once(number), None, given.say, compare)
        }
        None => run(plan, numbers(given.seed, given.cases), least, given.say, compare),
    })
}

/// Calls an implementation on a case; says what differs, if anything does.
pub type Compare<'a, C> = dyn FnMut(&C) -> Option<String> + 'a;

/// A text in printable ASCII.
pub fn escaped(text: &[u8]) -> String {
    let shown: String =
        text.iter().take(LONGEST_SHOWN).flat_map(|&byte| std::ascii::escape_default(byte)).map(char::from).collect();
    format!("b\"{}\"{} ({} bytes)", shown, if text.len() > LONGEST_SHOWN { ".." } else { "" }, text.len())
}

/// The numbers of the cases of a seed.
pub fn numbers(seed: u64, count: usize) -> impl Iterator<Item = u64> {
    let mut random = Random::new(seed);
    (0..count).map(move |_| random.next())
}

/// Texts from which pieces were left out, as long as they still differ and the tries last.
pub fn shortened(mut texts: Vec<Vec<u8>>, mut differs: impl FnMut(&[Vec<u8>]) -> bool) -> Vec<Vec<u8>> {
    let mut tries = TRIES;
    for which in (0..texts.len()).chain([0]) {
        let mut piece = texts[which].len();
        while piece > 0 {
            let mut at = 0;
            while at + piece <= texts[which].len() && tries > 0 {
                tries -= 1;
                let mut fewer = texts.clone();
                fewer[which].drain(at..at + piece);
                if differs(&fewer) {
                    texts = fewer;
                } else {
                    at += piece;
                }
            }
            piece /= 2;
        }
    }
    texts
}

/// What came of the cases.
struct Tally {
    groups: Vec<Group>,
    met: BTreeMap<String, usize>,
    shown: usize,
    longest: Duration,
}

impl Tally {
    fn new(classes: &[&'static str]) -> Tally {
        let group = |name: &&str| Group { name: name.to_string(), inputs: 0, differences: 0 };
        let groups = classes.iter().map(group).collect();
        Tally { groups, met: BTreeMap::new(), shown: 0, longest: Duration::ZERO }
    }

    /// Compares one case; prints a difference.
    fn compare<C: Case>(&mut self, case: &C, name: &str, compare: &mut Compare<C>) {
        let began = Instant::now();
        let difference = compare(case);
        self.longest = self.longest.max(began.elapsed());
        let group = self.groups.iter_mut().find(|group| group.name == case.class()).expect("a class has this name");
        group.inputs += 1;
        if let Some(difference) = difference {
            group.differences += 1;
            self.shown += 1;
            if self.shown <= SHOWN {
                println!("DIFFERENCE in {}, {}: {}\n{}", group.name, name, difference, case.describe());
                let texts = shortened(case.texts(), |texts| compare(&case.with(texts.to_vec())).is_some());
                let short = case.with(texts);
                println!("shorter: {}\n{}", compare(&short).unwrap_or_default(), short.describe());
            }
        }
    }
}

/// Runs the cases of these numbers; prints a few differences and what was met; gives the passed and the failed: one for
/// each class. If each feature is to be met `least` times, the stored cases are run too, and there is one for each
/// feature.
pub fn run<C: Case>(
    plan: &Plan<C>,
    numbers: impl Iterator<Item = u64>,
    least: Option<usize>,
    say: bool,
    compare: &mut Compare<C>,
) -> (usize, usize) {
    let mut tally = Tally::new(&plan.classes);
    if least.is_some() {
        for (name, case) in (plan.stored)() {
            tally.compare(&case, &name, compare);
        }
    }
    for number in numbers {
        if say {
            eprintln!("--one {}", number);
        }
        let case = (plan.case)(number);
        tally.compare(&case, &format!("--one {}", number), compare);
        case.met().into_iter().for_each(|feature| *tally.met.entry(feature).or_default() += 1);
    }
    tally.groups.retain(|group| least.is_some() || group.inputs > 0);
    println!("the longest call took {:.1} ms", tally.longest.as_secs_f64() * 1e3);
    report(&tally.groups, &tally.met, &plan.features, least)
}

/// Runs so many cases of a seed on implementations with a slip each, until all have been noticed and at least 20,000
/// cases are done, and on the first, which has none and must not differ; gives the passed and the failed, one for each
/// slip.
pub fn self_test<C: Shown, S: Copy>(
    case: fn(u64) -> C,
    slips: &[(S, &str)],
    (seed, cases): (u64, usize),
    compare: &mut dyn FnMut(&C, S) -> Option<String>,
) -> (usize, usize) {
    let mut noticed: Vec<Option<(usize, &str)>> = vec![None; slips.len()]; // after how many cases, and in which class
    for (done, number) in numbers(seed, cases).enumerate() {
        if done >= 20_000 && noticed[1..].iter().all(|slip| slip.is_some()) {
            break;
        }
        let case = case(number);
        for (at, noticed) in noticed.iter_mut().enumerate().filter(|(_, noticed)| noticed.is_none()) {
            if let Some(difference) = compare(&case, slips[at].0) {
                *noticed = Some((done + 1, case.class()));
                if at == 0 {
                    println!("DIFFERENCE in {}, --one {}: {}", case.class(), number, difference);
                    println!("{}", case.describe());
                }
            }
        }
    }
    let (mut passed, mut failed) = (0, 0);
    for (at, ((_, what), noticed)) in slips.iter().zip(&noticed).enumerate() {
        let good = noticed.is_some() == (at > 0);
        let when = match noticed {
            Some((after, class)) => format!("noticed after {} cases, in {}", after, class),
            None => "not noticed".to_string(),
        };
        println!("{}: {}{}", what, when, if good { "" } else { "  FAILED" });
        *(if good { &mut passed } else { &mut failed }) += 1;
    }
    (passed, failed)
}
