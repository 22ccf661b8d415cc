//! The chosen questions as theorems: the oracle answers them, and each is a theorem of
//! crates/vectors.

mod modules;
mod spelled;
mod theorem;

pub use modules::write;
