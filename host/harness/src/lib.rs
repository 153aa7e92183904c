//! What the comparisons of a library with an independent implementation share:
//!
//! - `random`: pseudo-random numbers;
//! - `arguments`: what a comparison is told when it is run;
//! - `classes`: classes of random cases;
//! - `lend`: texts and areas at any address, with noise around them, and what a call leaves there;
//! - `trial`: many cases on one implementation, or on some with a slip each;
//! - `slips`: implementations with a slip;
//! - `report`: what was tried and met, and the tally.

pub mod arguments;
pub mod classes;
pub mod lend;
pub mod random;
pub mod report;
pub mod slips;
pub mod trial;
