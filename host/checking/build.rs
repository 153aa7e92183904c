//! The library of the C entries. Only the program links it (src/main.rs); the comparison and its tests do without.

include!("../link.rs");

fn main() {
    find_library("JEHVRUKAM_LIB", "jehvrukam");
}
