//! What a comparison is told when it is run, and how it ends.

use std::process::exit;
use std::time::Instant;

/// `[--seed N] [--cases N] [--one N] [--say] [--self-test]`
pub struct Arguments {
    pub seed: u64,
    /// How many random cases.
    pub cases: usize,
    /// The number of the only case.
    pub one: Option<u64>,
    /// The number of each case is printed before the call.
    pub say: bool,
    /// Implementations with a slip each stand in the library's place.
    pub self_test: bool,
    began: Instant,
}

impl Arguments {
    /// What the program of this name was told; with this seed and so many cases if not told otherwise.
    pub fn of(program: &str, seed: u64, cases: usize) -> Arguments {
        let mut given = Arguments { seed, cases, one: None, say: false, self_test: false, began: Instant::now() };
        let mut words = std::env::args().skip(1);
        while let Some(word) = words.next() {
            match word.as_str() {
                "--seed" => given.seed = whole(words.next()),
                "--cases" => given.cases = whole(words.next()) as usize,
                "--one" => given.one = Some(whole(words.next())),
                "--say" => given.say = true,
                "--self-test" => given.self_test = true,
                _ => usage(program),
            }
        }
        given
    }

    /// Prints the tally; ends the program.
    pub fn finish(&self, (passed, failed): (usize, usize)) -> ! {
        println!("seed {}, {:.1} s", self.seed, self.began.elapsed().as_secs_f64());
        println!("{} passed, {} failed", passed, failed);
        exit(i32::from(failed > 0))
    }
}

/// Says how the program is run; ends it.
fn usage(program: &str) -> ! {
    eprintln!("usage: {} [--seed N] [--cases N] [--one N] [--say] [--self-test]", program);
    exit(2)
}

/// A whole number, decimal or hexadecimal.
fn whole(word: Option<String>) -> u64 {
    let word = word.unwrap_or_default();
    let parsed = match word.strip_prefix("0x") {
        Some(digits) => u64::from_str_radix(digits, 16),
        None => word.parse(),
    };
    parsed.unwrap_or_else(|_| {
        eprintln!("not a number: '{}'", word);
        exit(2)
    })
}
