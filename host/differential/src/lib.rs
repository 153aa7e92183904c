//! What the comparison of the library's reading and viewing with the independent reader and viewer needs:
//!
//! - `generate`, `damage`, `small`: random texts, damaged ones, and all small texts of some forms;
//! - `tables`: tables that were read, damaged ones, and such as no text has, in classes;
//! - `view`: a viewer asked about every place of a table;
//! - `walk`: a read text walked by a viewer, and written again;
//! - `run`: many tables, and what they are to meet;
//! - `wrong`: viewers with a slip, which the tables are to notice.

pub mod damage;
pub mod generate;
pub mod run;
pub mod small;
pub mod tables;
pub mod view;
pub mod walk;
pub mod wrong;

pub use harness::random;
