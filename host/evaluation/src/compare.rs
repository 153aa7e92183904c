//! Calls an implementation of an entry on a case, and holds refusal, numbers and every byte to what is expected.

use evaluator::entry::{call, Entry, Evaluation, Judgement, Parameters, MAX_LIMIT, WRONG_SIZE};
use harness::lend::{Comparer, Expected, Lent, Names};
use harness::random::Random;
use writer::value::MAX_TEXT_BYTES;

/// Does what the C entries do.
pub trait Implementation {
    fn call(&mut self, entry: &Entry, parameters: Parameters) -> u32;
}

/// The independent one.
pub struct Independent;

impl Implementation for Independent {
    fn call(&mut self, entry: &Entry, parameters: Parameters) -> u32 {
        call(entry, parameters)
    }
}

/// A call of an entry: texts, limit, lent areas, and what is to come of them.
pub struct Call {
    pub entry: &'static Entry,
    pub texts: Vec<Vec<u8>>,
    pub limit: u64,
    pub lent: Lent,
    pub evaluation: Evaluation,
    pub judgement: Judgement,
}

fn slices(texts: &[Vec<u8>]) -> Vec<&[u8]> {
    texts.iter().map(|text| &text[..]).collect()
}

impl Call {
    pub fn new(entry: &'static Entry, texts: Vec<Vec<u8>>, limit: u64, lent: Lent) -> Call {
        let evaluation = Evaluation::of(entry, &slices(&texts));
        Call::judged(entry, texts, evaluation, limit, lent)
    }

    /// On texts of which this comes, with a limit and areas to match.
    pub fn random(random: &mut Random, entry: &'static Entry, texts: Vec<Vec<u8>>, evaluation: Evaluation) -> Call {
        let limit = if entry.evaluates() { limit(random, &evaluation) } else { 0 };
        let length = evaluation.judge(limit.min(MAX_LIMIT), usize::MAX).text.len();
        let output = [room(random, length)];
        let lent = Lent::new(random, entry.stated, &output[..usize::from(entry.evaluates())]);
        Call::judged(entry, texts, evaluation, limit, lent)
    }

    fn judged(entry: &'static Entry, texts: Vec<Vec<u8>>, evaluation: Evaluation, limit: u64, lent: Lent) -> Call {
        let judgement = match entry.is_wrong_size(&lent.lengths, limit) {
            true => Judgement { refusal: WRONG_SIZE, ..Judgement::default() },
            false => evaluation.judge(limit, room_of(&lent)),
        };
        Call { entry, texts, limit, lent, evaluation, judgement }
    }

    /// The same with other texts.
    pub fn with(&self, texts: Vec<Vec<u8>>) -> Call {
        Call::new(self.entry, texts, self.limit, self.lent.clone())
    }

    /// Bytes of the output.
    pub fn room(&self) -> usize {
        room_of(&self.lent)
    }

    /// Has it done; says what differs from what is expected, if anything does.
    pub fn compare(&self, comparer: &mut Comparer, implementation: &mut dyn Implementation) -> Option<String> {
        let Call { entry, limit, judgement, .. } = self;
        let nothing = || vec![Vec::new(); entry.stated.len()];
        let mut fronts = self.evaluation.fronts().filter(|_| judgement.refusal == 0).unwrap_or_else(nothing);
        fronts.push(judgement.text.clone());
        let expected = Expected {
            refusal: judgement.refusal,
            numbers: entry.numbers.iter().map(|number| judgement.number(*number)).collect(),
            fronts: fronts.iter().map(|front| &front[..]).collect(),
        };
        let names = Names { areas: entry.areas, numbers: entry.number_names };
        comparer.compare(&slices(&self.texts), &self.lent, &expected, &names, &mut |texts, areas, numbers| {
            implementation.call(entry, Parameters { texts, limit: *limit, areas, numbers })
        })
    }

    /// Limit, areas, and what is expected, as one can look at them.
    pub fn describe(&self) -> String {
        let Judgement { refusal, which, place, words, fits, steps, ref text } = self.judgement;
        let numbers = format!("which {} place {} words {} fits {} steps {}", which, place, words, fits, steps);
        let text = harness::lend::told(text, 0);
        format!(
            "  limit    {}\n  areas    {:?}\n  expected refusal {} {}, {}",
            self.limit, self.lent, refusal, numbers, text
        )
    }
}

/// Bytes of the area that stands last.
fn room_of(lent: &Lent) -> usize {
    lent.lengths[lent.lengths.len() - 1]
}

/// A limit: the largest, about the steps that the run needs, or above the largest.
fn limit(random: &mut Random, evaluation: &Evaluation) -> u64 {
    let needed = match evaluation.run() {
        Some(run) => run.steps.len() as u64,
        None => random.below(20) as u64,
    };
    match random.below(40) {
        0 => random.pick(&[1_001, 1_002, 1 << 16, 1 << 32, (1 << 32) + 20, 1 << 63, u64::MAX]),
        1 => 0,
        2..=3 => random.below(needed as usize + 1) as u64,
        4..=8 => needed.saturating_sub(1),
        9..=14 => needed.min(MAX_LIMIT),
        15..=18 => (needed + 1).min(MAX_LIMIT),
        19..=20 => MAX_LIMIT - 1,
        _ => MAX_LIMIT,
    }
}

/// The room of an output: none, just too short, just enough, one more, as the program has, or more.
fn room(random: &mut Random, length: usize) -> usize {
    match random.below(16) {
        0 => 0,
        1 => random.below(length + 1),
        2 => length.saturating_sub(1),
        3..=5 => length,
        6 => length + 1,
        7 => length + random.below(40),
        8 => random.pick(&[MAX_TEXT_BYTES - 1, MAX_TEXT_BYTES + 1, MAX_TEXT_BYTES + 3_000]),
        9..=11 => 100.max(length),
        _ => MAX_TEXT_BYTES,
    }
}
