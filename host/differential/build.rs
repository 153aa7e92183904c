//! The library of the C entries, which src/compare.rs links.

include!("../link.rs");

fn main() {
    find_library("JEHVRUKAM_LIB", "jehvrukam");
}
