//! The text of a value and refusals 11 and 12, written from document 01 and RFC 8785, to compare the proved writer
//! with; and what the comparison needs:
//!
//! - `value`: values, their text, size and refusals;
//! - `areas`: the value that a cell stands for, whatever bytes the areas hold;
//! - `generate`, `layout`, `cases`: random values, laid over areas, and areas that no value was laid over;
//! - `compare`, `run`: a writer called on a case, and on many;
//! - `wrong`: writers with a slip, which the cases are to notice.

pub mod areas;
pub mod cases;
pub mod compare;
#[path = "../../calendar/src/dates.rs"]
pub mod dates;
pub mod generate;
pub mod layout;
pub mod run;
#[cfg(test)]
mod tests;
pub mod value;
pub mod wrong;

pub use harness::random;
