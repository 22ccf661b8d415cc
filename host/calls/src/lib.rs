//! Holds the calls of the archive against the oracle. `check` makes many calls for one text, record
//! or lookup and compares all that they answer and leave; `texts` and `records` give these. `cases`
//! has the questions that the program crates/cases replays, and what it is to print.

pub mod cases;
pub mod check;
mod fewer;
mod folder;
pub mod lent;
pub mod question;
pub mod records;
pub mod smallest;
pub mod texts;
mod traps;
mod valgrind;

pub use check::{Checker, Difference, Met, Read};
pub use folder::Folder;
pub use question::Question;
pub use smallest::explained;
pub use valgrind::running as under_valgrind;
