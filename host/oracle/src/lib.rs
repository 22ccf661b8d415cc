//! rove's NEXUS reader, unchanged, and the answers of document 01 on top of it: the record and
//! its refusals, the written form, the lookup of a taxon's cells, and generated questions.

mod alignment;
pub mod data;
pub mod model;
#[rustfmt::skip]
pub mod nexus;

// The lexer is private to `nexus`. The same file is compiled here a second time, for those who
// need the tokens outside of the reader.
#[allow(dead_code, clippy::duplicate_mod)]
#[rustfmt::skip]
#[path = "nexus/lexer.rs"]
mod lexer;
use nexus::Error;

pub mod answer;
pub mod bounds;
pub mod form;
pub mod frames;
pub mod generate;
pub mod lookup;
pub mod messages;
pub mod record;
pub mod tally;
pub mod tokens;
