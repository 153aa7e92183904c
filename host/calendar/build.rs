//! The library of the C entries, which src/library.rs links.

include!("../link.rs");

fn main() {
    find_library("CALENDAR_LIB", "test_calendar");
}
