//! What each refusal means: its number, a sentence, the rules behind it, a small example that is
//! refused so, and how to mend it. docs/REFUSALS.md is made of this table.
//!
//! ```
//! let entry = nexus::refusals::entry(22).expect("an entry");
//! println!("{}\n{}\nMend: {}", entry.sentence, entry.meaning, entry.mend);
//! ```

/// These lines as a text, each ended by LF.
macro_rules! lines {
    ($($line:expr),+) => { concat!($($line, "\n"),+) };
}

/// A text with these lines in a DATA block.
macro_rules! data {
    ($($line:literal),+) => { lines!["#NEXUS", "BEGIN DATA;", $($line),+, "END;"] };
}

mod calls;
mod characters;
mod commands;
mod declarations;
mod example;
mod matrix;
mod page;
mod whole;

pub use example::{Call, Example};
pub use page::page;

use crate::Refusal;

/// What there is to say of a number.
///
/// ```
/// let entry: &nexus::refusals::Entry = nexus::refusals::entry(18).expect("an entry");
/// println!("{}: {}", entry.title, entry.sentence);
/// println!("{}", entry.refused);
/// ```
#[derive(Clone, Copy, Debug)]
pub struct Entry {
    /// The number, from 1 to 33.
    pub number: u32,
    /// A few words for it.
    pub title: &'static str,
    /// A sentence that says what is wrong.
    pub sentence: &'static str,
    /// What the rules are, in a few sentences.
    pub meaning: &'static str,
    /// Where the refusal's place is.
    pub place: &'static str,
    /// What to do.
    pub mend: &'static str,
    /// A call that is refused by this number.
    pub refused: Example,
    /// Line and column of that refusal.
    pub at: (usize, usize),
    /// The same, mended: it is not refused.
    pub mended: Example,
}

impl Entry {
    /// How its example is refused.
    ///
    #[doc = example!()]
    /// let entry = nexus::refusals::entry(18).expect("an entry");
    /// assert_eq!(entry.refused.ask(), Err(entry.refusal()));
    /// ```
    pub fn refusal(&self) -> Refusal {
        let (line, column) = self.at;
        Refusal {
            number: self.number,
            line,
            column,
        }
    }
}

/// The tables of the parts, in the order of the numbers.
static PARTS: [&[Entry]; 6] = [
    &whole::ENTRIES,
    &commands::ENTRIES,
    &declarations::ENTRIES,
    &matrix::ENTRIES,
    &characters::ENTRIES,
    &calls::ENTRIES,
];

/// What there is to say of the place of a refusal that has none.
const NOWHERE: &str = "None: line 0, column 0.";

/// All entries, by rising numbers.
///
/// ```
/// assert!(nexus::refusals::all().map(|entry| entry.number).eq(1..=33));
/// ```
pub fn all() -> impl Iterator<Item = &'static Entry> {
    PARTS.iter().copied().flatten()
}

/// The entry of a number, if it is one of the 33.
///
/// ```
/// assert!(nexus::refusals::entry(33).is_some());
/// assert!(nexus::refusals::entry(34).is_none());
/// ```
pub fn entry(number: u32) -> Option<&'static Entry> {
    all().find(|entry| entry.number == number)
}
