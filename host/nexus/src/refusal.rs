//! Refusals, by document 01's numbers.

use std::error::Error;
use std::fmt;

use crate::refusals::{self, Entry};

/// Why a call has refused what it was given, and where. Line and column count from 1; both are 0
/// where the refusal has no place.
///
#[doc = example!()]
/// let refusal = nexus::read(b"#NEXUS BEGIN DATA;").expect_err("no END");
/// assert_eq!((refusal.number, refusal.line, refusal.column), (9, 1, 14));
/// assert_eq!(
///     refusal.to_string(),
///     "line 1, column 14: This block is not ended by END. (refusal 9)"
/// );
/// ```
#[derive(Clone, Copy, Debug, Eq, Hash, PartialEq)]
pub struct Refusal {
    /// Which of the 33 it is: see [`crate::refusals`].
    pub number: u32,
    /// The line, counting from 1; 0 where there is no place.
    pub line: usize,
    /// The column, counting from 1, in characters; 0 where there is no place.
    pub column: usize,
}

impl Refusal {
    /// The refusal that says that a result is longer than its buffer.
    ///
    /// ```
    /// assert_eq!(nexus::Refusal::NO_ROOM, 30);
    /// ```
    pub const NO_ROOM: u32 = 30;

    /// The refusal of bytes that are no record.
    ///
    /// ```
    /// assert_eq!(nexus::Refusal::NO_RECORD, 31);
    /// ```
    pub const NO_RECORD: u32 = 31;

    /// The refusal of a record whose form is longer than a text may be.
    ///
    /// ```
    /// assert_eq!(nexus::Refusal::FORM_TOO_LONG, 32);
    /// ```
    pub const FORM_TOO_LONG: u32 = 32;

    /// The refusal of a name that no taxon has.
    ///
    /// ```
    /// assert_eq!(nexus::Refusal::NO_NAME, 33);
    /// ```
    pub const NO_NAME: u32 = 33;

    /// A refusal without a place.
    pub(crate) fn nowhere(number: u32) -> Self {
        Self {
            number,
            line: 0,
            column: 0,
        }
    }

    /// What is wrong, in a sentence.
    ///
    /// ```
    /// let refusal = nexus::Refusal { number: 18, line: 6, column: 1 };
    /// assert_eq!(refusal.sentence(), "A taxon has this name already.");
    /// ```
    pub fn sentence(&self) -> &'static str {
        self.entry()
            .map_or("There is no refusal with this number.", |entry| {
                entry.sentence
            })
    }

    /// What the number stands for, in a few words.
    ///
    /// ```
    /// let refusal = nexus::Refusal { number: 18, line: 6, column: 1 };
    /// assert_eq!(refusal.reason(), "taxon twice");
    /// ```
    pub fn reason(&self) -> &'static str {
        self.entry().map_or("unknown refusal", |entry| entry.title)
    }

    /// All that there is to say of the number, if it is one of the 33.
    ///
    /// ```
    /// let refusal = nexus::Refusal { number: 18, line: 6, column: 1 };
    /// let entry = refusal.entry().expect("an entry");
    /// assert!(entry.mend.starts_with("Rename one of the taxa."));
    /// ```
    pub fn entry(&self) -> Option<&'static Entry> {
        refusals::entry(self.number)
    }
}

impl fmt::Display for Refusal {
    fn fmt(&self, f: &mut fmt::Formatter<'_>) -> fmt::Result {
        if self.line > 0 {
            write!(f, "line {}, column {}: ", self.line, self.column)?;
        }
        write!(f, "{} (refusal {})", self.sentence(), self.number)
    }
}

impl Error for Refusal {}

#[cfg(test)]
mod tests {
    use super::*;

    #[test]
    fn a_refusal_says_where_and_why() {
        let said = |number, line, column| {
            let refusal = Refusal {
                number,
                line,
                column,
            };
            refusal.to_string()
        };
        assert_eq!(
            said(18, 6, 3),
            "line 6, column 3: A taxon has this name already. (refusal 18)"
        );
        assert_eq!(
            said(2, 0, 0),
            "The work memory is shorter than the text needs. (refusal 2)"
        );
        assert_eq!(
            said(34, 0, 0),
            "There is no refusal with this number. (refusal 34)"
        );
    }

    #[test]
    fn every_number_has_its_own_reason() {
        let reason = |number| Refusal::nowhere(number).reason();
        let mut reasons: Vec<_> = (0..=Refusal::NO_NAME).map(reason).collect();
        reasons.sort_unstable();
        reasons.dedup();
        assert_eq!(reasons.len(), 34);
    }
}
