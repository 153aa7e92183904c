//! The library of the C entry. Only the program links it (src/main.rs); the independent writer and its tests do without.

include!("../link.rs");

fn main() {
    find_library("WRITER_LIB", "test_writer");
}
