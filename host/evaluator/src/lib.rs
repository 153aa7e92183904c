//! Evaluation and the kind check as document 01 has them, written from the paper alone, to compare the proved ones with:
//!
//! - `form`: what a row of a read text says;
//! - `rule`: the shape of a rule, and its tree;
//! - `value`: values, which share their parts;
//! - `run`: the run of a rule, whatever the limit;
//! - `words`: the words of sheets and of the check, and what belongs to them;
//! - `sheet`: the shape of a sheet, and which records fit;
//! - `check`: the words of a rule under a sheet;
//! - `entry`: the refusals in their order, the numbers and the areas;
//! - `cases`: the cases of `vectors/`.
//!
//! Texts are read by the independent reader, answers written by the independent writer, and dates are those of the
//! independent calendar.

pub mod cases;
pub mod check;
pub mod entry;
pub mod form;
pub mod rule;
pub mod run;
pub mod sheet;
pub mod value;
pub mod words;

pub use writer::dates;
