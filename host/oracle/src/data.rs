//! Part of rove's src/data.rs: `DataType`, `Cell` and `Matrix` with the accessors that a reader
//! of matrices needs. Left out are `DataType::Mixed` and `DataType::name`, the contents of mixed
//! matrices (the fields `blocks` and `mixed` stay, since nexus/mod.rs fills them, but are always
//! empty), `GapTreatment`, `CompressionError`, `CharacterSet`, `Patterns` and all compression.

use crate::model::CharacterOrdering;

#[derive(Clone, Copy, Debug, PartialEq, Eq, PartialOrd, Ord)]
pub enum DataType {
    Standard,
    Dna,
}

/// State indices refer to the matrix's declared alphabet, including unobserved states.
#[derive(Clone, Debug, Eq, Hash, PartialEq)]
pub enum Cell {
    State(usize),
    Uncertain(Vec<usize>),
    Polymorphic(Vec<usize>),
    Missing,
    Gap,
}

#[derive(Clone, Debug, PartialEq, Eq)]
pub struct Matrix {
    pub(crate) data_type: DataType,
    pub(crate) blocks: Vec<()>,
    pub(crate) mixed: Option<()>,
    pub(crate) taxa: Vec<String>,
    pub(crate) symbols: Vec<char>,
    pub(crate) rows: Vec<Vec<Cell>>,
    pub(crate) character_labels: Vec<Option<String>>,
    pub(crate) state_labels: Vec<Vec<String>>,
    pub(crate) ordering: Vec<CharacterOrdering>,
}

impl Matrix {
    pub fn data_type(&self) -> DataType {
        self.data_type
    }

    pub fn taxa(&self) -> &[String] {
        &self.taxa
    }

    pub fn symbols(&self) -> &[char] {
        &self.symbols
    }

    pub fn ordering(&self) -> &[CharacterOrdering] {
        &self.ordering
    }

    pub fn character_count(&self) -> usize {
        self.character_labels.len()
    }

    /// Taxon-major observations, in the order returned by `taxa`.
    pub fn rows(&self) -> &[Vec<Cell>] {
        &self.rows
    }

    pub fn character_labels(&self) -> &[Option<String>] {
        &self.character_labels
    }

    /// Descriptive labels by character, in declared symbol order. May be absent
    /// or shorter than the alphabet; labels never change the model's state count.
    pub fn state_labels(&self) -> &[Vec<String>] {
        &self.state_labels
    }
}
