//! The proved writer, through its C entry, against the independent one.
//!
//!     writer [--seed N] [--cases N]   so many random cases, made from this seed
//!     writer --one N                  the case of this number alone, as a difference names it
//!     writer --say                    also prints the number of each case before the call
//!     writer --self-test              writers with a slip each in place of the library: every slip must be noticed
//!
//! Refusal, size and every byte of the output are compared; a few differences are printed. For each class of cases it
//! prints how many were written and how many refused with 11 and 12; a class without an outcome that it is to have, or
//! a feature that was met rarely, fails. The last line is 'N passed, M failed': one for each class, one for each
//! feature.

use harness::arguments::Arguments;
use harness::trial::numbers;
use writer::areas::Areas;
use writer::cases::case;
use writer::compare::Writer;
use writer::run::{describe, run, self_test, CASES};

#[link(name = "test_writer", kind = "static")]
extern "C" {
    fn writer_write(
        rule_strings: *const u8,
        rule_strings_len: usize,
        strings: *const u8,
        strings_len: usize,
        table: *const u8,
        table_len: usize,
        cells: *const u8,
        cells_len: usize,
        cell: u64,
        output: *mut u8,
        output_len: usize,
        size: *mut u64,
    ) -> u32;
}

struct Library;

impl Writer for Library {
    fn write(&mut self, areas: Areas, cell: u64, output: &mut [u8], size: &mut u64) -> u32 {
        let Areas { rule, strings, table, cells } = areas;
        // SAFETY: the areas have these lengths and lie apart.
        unsafe {
            writer_write(
                rule.as_ptr(),
                rule.len(),
                strings.as_ptr(),
                strings.len(),
                table.as_ptr(),
                table.len(),
                cells.as_ptr(),
                cells.len(),
                cell,
                output.as_mut_ptr(),
                output.len(),
                size,
            )
        }
    }
}

fn main() {
    let given = Arguments::of("writer", 20_261_116, CASES);
    given.finish(match given.one {
        _ if given.self_test => self_test(given.seed, given.cases),
        Some(number) => {
            println!("{}", describe(&case(number)));
            run(&mut Library, std::iter::once(number), false, given.say)
        }
        None => run(&mut Library, numbers(given.seed, given.cases), given.cases >= CASES, given.say),
    })
}
