//! What the comparison of the library's evaluation with the independent one needs:
//!
//! - `values`, `rules`, `misshape`: random records, rules for them, and what nearly is a rule;
//! - `operations`: one operation on few values;
//! - `limits`: rules whose runs and answers come near a limit;
//! - `spell`: texts of them;
//! - `cases`: random cases, in classes;
//! - `compare`, `run`: an evaluator called on a case, and on many;
//! - `wrong`: evaluators with a slip, which the cases are to notice.
//!
//! Random numbers, texts, damage, date texts and the report are those of the other comparisons.

pub mod cases;
pub mod compare;
#[path = "../../differential/src/damage.rs"]
pub mod damage;
#[path = "../../calendar/src/generate.rs"]
pub mod date_texts;
#[path = "../../differential/src/generate.rs"]
pub mod generate;
pub mod limits;
pub mod misshape;
pub mod operations;
pub mod rules;
pub mod run;
pub mod spell;
pub mod values;
pub mod wrong;

pub use harness::random;
pub use writer::dates;
