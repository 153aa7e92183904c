//! The library's evaluation, through its C entry, against the independent one.
//!
//!     evaluation [--seed N] [--cases N]   so many random cases, made from this seed, after those of vectors/
//!     evaluation --one N                  the case of this number alone, as a difference names it
//!     evaluation --say                    also prints the number of each case before the call
//!     evaluation --self-test              evaluators with a slip each in place of the library: every slip must be noticed
//!
//! Refusal, numbers and every byte of all areas are compared; a few differences are printed, each with a shorter case
//! that differs too. For each class of cases it prints how many there were, and how often each refusal, each operation
//! and some features were met; one that was met rarely fails. The last line is 'N passed, M failed': one for each class,
//! one for each of these.

use evaluation::cases::Case;
use evaluation::compare::Implementation;
use evaluation::run::{plan, self_test};
use evaluator::entry::{Entry, Parameters};
use harness::lend::Comparer;
use harness::trial;

#[link(name = "jehvrukam", kind = "static")]
extern "C" {
    fn jehvrukam_evaluate(
        rule: *const u8,
        rule_len: usize,
        record: *const u8,
        record_len: usize,
        limit: u64,
        rule_table: *mut u8,
        rule_table_len: usize,
        rule_strings: *mut u8,
        rule_strings_len: usize,
        record_table: *mut u8,
        record_table_len: usize,
        record_strings: *mut u8,
        record_strings_len: usize,
        cells: *mut u8,
        cells_len: usize,
        output: *mut u8,
        output_len: usize,
        which: *mut u64,
        place: *mut u64,
        steps: *mut u64,
        length: *mut u64,
    ) -> u32;
}

struct Library;

impl Implementation for Library {
    fn call(&mut self, _entry: &Entry, parameters: Parameters) -> u32 {
        let Parameters { texts, limit, areas, numbers } = parameters;
        let [rule, record]: [&[u8]; 2] = texts.try_into().unwrap();
        let [rule_table, rule_strings, record_table, record_strings, cells, output]: [&mut [u8]; 6] =
            areas.try_into().unwrap();
        let [which, place, steps, length]: [&mut u64; 4] = numbers.try_into().unwrap();
        // SAFETY: the texts and areas have these lengths, and all lie apart.
        unsafe {
            jehvrukam_evaluate(
                rule.as_ptr(),
                rule.len(),
                record.as_ptr(),
                record.len(),
                limit,
                rule_table.as_mut_ptr(),
                rule_table.len(),
                rule_strings.as_mut_ptr(),
                rule_strings.len(),
                record_table.as_mut_ptr(),
                record_table.len(),
                record_strings.as_mut_ptr(),
                record_strings.len(),
                cells.as_mut_ptr(),
                cells.len(),
                output.as_mut_ptr(),
                output.len(),
                which,
                place,
                steps,
                length,
            )
        }
    }
}

fn main() {
    let mut comparer = Comparer::new();
    let compare = &mut |case: &Case| case.call.compare(&mut comparer, &mut Library);
    trial::program("evaluation", 20_261_117, &plan(), compare, self_test)
}
