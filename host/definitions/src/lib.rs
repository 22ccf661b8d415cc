//! The chosen questions, for all who ask them.

pub mod questions;
