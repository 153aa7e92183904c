//! What the comparison of the library's entries with a sheet with the independent ones needs:
//!
//! - `sheets`: random sheets, records for them, and what nearly is a sheet;
//! - `rules`: random rules, most of which pass the check under the sheet that they are made for;
//! - `operations`: one operation on few operands, so that each word stands in each place;
//! - `cases`: random cases, in classes: a rule, a sheet and a record, given to all three entries;
//! - `promise`: what holds of every answer, seen from outside;
//! - `run`: an implementation called on many cases, and what these are to meet;
//! - `wrong`: implementations with a slip, which the cases are to notice.
//!
//! Values, records, spelling, damage and rules that know no sheet are those of `evaluation`.

pub mod cases;
pub mod operations;
pub mod promise;
pub mod rules;
pub mod run;
pub mod sheets;
pub mod wrong;
