//! What the calls are asked.

use std::fmt;

use crate::check::{Checker, Difference, Met};
use crate::{records, texts};

#[derive(Clone, Copy, Debug, Eq, PartialEq)]
pub enum Kind {
    Text,
    Record,
    Lookup,
}

pub const KINDS: [Kind; 3] = [Kind::Text, Kind::Record, Kind::Lookup];

#[derive(Clone, Debug, Eq, PartialEq)]
pub enum Question {
    /// A text that is to be read.
    Text(Vec<u8>),
    /// A record that is to be written.
    Record(Vec<u8>),
    /// A name that is to be found in a record.
    Lookup { name: Vec<u8>, record: Vec<u8> },
}

impl Question {
    /// The question of a kind with this number, given by it and the seed alone.
    pub fn generated(kind: Kind, seed: u64, number: u64) -> Self {
        match kind {
            Kind::Text => Self::Text(texts::text(seed, number)),
            Kind::Record => Self::Record(records::record(seed, number)),
            Kind::Lookup => {
                let (name, record) = records::lookup(seed, number);
                Self::Lookup { name, record }
            }
        }
    }

    /// All calls for it.
    pub fn check(&self, checker: &mut Checker) -> Result<Met, Difference> {
        match self {
            Self::Text(text) => checker.check(text),
            Self::Record(record) => checker.check_record(record),
            Self::Lookup { name, record } => checker.check_lookup(name, record),
        }
    }
}

impl fmt::Display for Question {
    fn fmt(&self, f: &mut fmt::Formatter<'_>) -> fmt::Result {
        match self {
            Self::Text(text) => write!(f, "text      \"{}\"", text.escape_ascii()),
            Self::Record(record) => write!(f, "record    \"{}\"", record.escape_ascii()),
            Self::Lookup { name, record } => {
                writeln!(f, "name      \"{}\"", name.escape_ascii())?;
                write!(f, "record    \"{}\"", record.escape_ascii())
            }
        }
    }
}
