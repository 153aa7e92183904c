//! The library's entries that take a sheet, through C, against the independent ones.
//!
//!     checking [--seed N] [--cases N]   so many random cases, made from this seed, after those of vectors/
//!     checking --one N                  the case of this number alone, as a difference names it
//!     checking --say                    also prints the number of each case before the call
//!     checking --self-test              implementations with a slip each in place of the library: every slip must be
//!                                       noticed
//!
//! A case is a rule, a sheet and a record, which are given to all three entries. Refusal, numbers and every byte of all
//! areas are compared, and the answer of the evaluation with a sheet is held to what is promised of it; a few
//! differences are printed, each with a shorter case that differs too. For each class of cases it prints how many there
//! were, and how often each refusal, each word and some features were met; one that was met rarely fails. The last line
//! is 'N passed, M failed': one for each class, one for each of these.

use checking::cases::Case;
use checking::run::{compare, plan, self_test};
use evaluation::compare::Implementation;
use evaluator::entry::{Entry, Parameters, CHECK, FITS};
use harness::lend::Comparer;
use harness::trial;

#[link(name = "jehvrukam", kind = "static")]
extern "C" {
    fn jehvrukam_check(
        rule: *const u8,
        rule_len: usize,
        sheet: *const u8,
        sheet_len: usize,
        rule_table: *mut u8,
        rule_table_len: usize,
        rule_strings: *mut u8,
        rule_strings_len: usize,
        sheet_table: *mut u8,
        sheet_table_len: usize,
        sheet_strings: *mut u8,
        sheet_strings_len: usize,
        which: *mut u64,
        place: *mut u64,
        words: *mut u64,
    ) -> u32;

    fn jehvrukam_fits(
        sheet: *const u8,
        sheet_len: usize,
        record: *const u8,
        record_len: usize,
        sheet_table: *mut u8,
        sheet_table_len: usize,
        sheet_strings: *mut u8,
        sheet_strings_len: usize,
        record_table: *mut u8,
        record_table_len: usize,
        record_strings: *mut u8,
        record_strings_len: usize,
        which: *mut u64,
        place: *mut u64,
        fits: *mut u64,
    ) -> u32;

    fn jehvrukam_evaluate_checked(
        rule: *const u8,
        rule_len: usize,
        sheet: *const u8,
        sheet_len: usize,
        record: *const u8,
        record_len: usize,
        limit: u64,
        rule_table: *mut u8,
        rule_table_len: usize,
        rule_strings: *mut u8,
        rule_strings_len: usize,
        sheet_table: *mut u8,
        sheet_table_len: usize,
        sheet_strings: *mut u8,
        sheet_strings_len: usize,
        record_table: *mut u8,
        record_table_len: usize,
        record_strings: *mut u8,
        record_strings_len: usize,
        cells: *mut u8,
        cells_len: usize,
        output: *mut u8,
        output_len: usize,
        which: *mut u64,
        place: *mut u64,
        words: *mut u64,
        fits: *mut u64,
        steps: *mut u64,
        length: *mut u64,
    ) -> u32;
}

struct Library;

impl Implementation for Library {
    fn call(&mut self, entry: &Entry, parameters: Parameters) -> u32 {
        match entry {
            entry if entry == &CHECK => with_two_texts(jehvrukam_check, parameters),
            entry if entry == &FITS => with_two_texts(jehvrukam_fits, parameters),
            _ => evaluate_checked(parameters),
        }
    }
}

/// What `jehvrukam_check` and `jehvrukam_fits` have in common.
type WithTwoTexts = unsafe extern "C" fn(
    *const u8,
    usize,
    *const u8,
    usize,
    *mut u8,
    usize,
    *mut u8,
    usize,
    *mut u8,
    usize,
    *mut u8,
    usize,
    *mut u64,
    *mut u64,
    *mut u64,
) -> u32;

fn with_two_texts(entry: WithTwoTexts, parameters: Parameters) -> u32 {
    let [one, other]: [&[u8]; 2] = parameters.texts.try_into().unwrap();
    let [table, strings, other_table, other_strings]: [&mut [u8]; 4] = parameters.areas.try_into().unwrap();
    let [which, place, told]: [&mut u64; 3] = parameters.numbers.try_into().unwrap();
    // SAFETY: the texts and areas have these lengths, and all lie apart.
    unsafe {
        entry(
            one.as_ptr(),
            one.len(),
            other.as_ptr(),
            other.len(),
            table.as_mut_ptr(),
            table.len(),
            strings.as_mut_ptr(),
            strings.len(),
            other_table.as_mut_ptr(),
            other_table.len(),
            other_strings.as_mut_ptr(),
            other_strings.len(),
            which,
            place,
            told,
        )
    }
}

fn evaluate_checked(parameters: Parameters) -> u32 {
    let Parameters { texts, limit, areas, numbers } = parameters;
    let [rule, sheet, record]: [&[u8]; 3] = texts.try_into().unwrap();
    let [rule_table, rule_strings, sheet_table, sheet_strings, record_table, record_strings, cells, output]: [&mut [u8];
        8] = areas.try_into().unwrap();
    let [which, place, words, fits, steps, length]: [&mut u64; 6] = numbers.try_into().unwrap();
    // SAFETY: the texts and areas have these lengths, and all lie apart.
    unsafe {
        jehvrukam_evaluate_checked(
            rule.as_ptr(),
            rule.len(),
            sheet.as_ptr(),
            sheet.len(),
            record.as_ptr(),
            record.len(),
            limit,
            rule_table.as_mut_ptr(),
            rule_table.len(),
            rule_strings.as_mut_ptr(),
            rule_strings.len(),
            sheet_table.as_mut_ptr(),
            sheet_table.len(),
            sheet_strings.as_mut_ptr(),
            sheet_strings.len(),
            record_table.as_mut_ptr(),
            record_table.len(),
            record_strings.as_mut_ptr(),
            record_strings.len(),
            cells.as_mut_ptr(),
            cells.len(),
            output.as_mut_ptr(),
            output.len(),
            which,
            place,
            words,
            fits,
            steps,
            length,
        )
    }
}

fn main() {
    let mut comparer = Comparer::new();
    let compare = &mut |case: &Case| compare(&mut comparer, case, &mut Library);
    trial::program("checking", 20_261_118, &plan(), compare, self_test)
}
