//! What a record says, part by part. A view borrows the record's bytes, copies nothing and allocates
//! nothing. It is made only of bytes that were judged to be a record, so no part of it can fail.

/// An iterator that knows how many are left: it is shown as the list of these.
macro_rules! counted {
    ($name:ident) => {
        impl ExactSizeIterator for $name<'_> {}
        impl std::iter::FusedIterator for $name<'_> {}

        impl std::fmt::Debug for $name<'_> {
            fn fmt(&self, f: &mut std::fmt::Formatter<'_>) -> std::fmt::Result {
                f.debug_list().entries(self.clone()).finish()
            }
        }
    };
}

mod cells;
mod characters;
mod lines;
mod numbers;
mod states;
mod taxa;
mod text;

use std::fmt;

pub use cells::{Cell, Cells};
pub use characters::{Character, Characters, Ordering, StateLabels};
pub use numbers::{CharacterNumber, TaxonNumber};
pub use states::{State, States, Symbols};
pub use taxa::{Taxa, Taxon};
pub use text::{Text, TextBytes};

use crate::{Refusal, lookup};
use lines::Lines;

/// The kind of data that a matrix has.
///
/// ```
/// use nexus::DataType;
/// assert_eq!(DataType::Dna.to_string(), "DNA");
/// ```
#[derive(Clone, Copy, Debug, Eq, Hash, PartialEq)]
pub enum DataType {
    /// States by symbols of the text's own: `STANDARD`.
    Standard,
    /// The four bases: `DNA`.
    Dna,
}

impl DataType {
    /// The word that records and texts have for it.
    ///
    /// ```
    /// use nexus::DataType;
    /// assert_eq!(DataType::Standard.word(), "STANDARD");
    /// ```
    pub fn word(self) -> &'static str {
        match self {
            Self::Standard => "STANDARD",
            Self::Dna => "DNA",
        }
    }
}

impl fmt::Display for DataType {
    fn fmt(&self, f: &mut fmt::Formatter<'_>) -> fmt::Result {
        f.pad(self.word())
    }
}

/// A record that somebody else keeps, and what it says.
///
#[doc = example!()]
/// # use inputs::example::TEXT;
/// use nexus::{View, read_into, work_needed};
/// let text = TEXT.as_bytes();
/// let (mut work, mut buffer) = ([0; 1_000], [0; 1_000]);
/// let length = read_into(text, &mut work, &mut buffer)?;
/// let view = View::of(&buffer[..length])?;
/// assert_eq!(view.taxon_count(), 2);
/// # Ok::<(), nexus::Refusal>(())
/// ```
#[derive(Clone, Copy, Eq, Hash, PartialEq)]
pub struct View<'r> {
    bytes: &'r [u8],
    data_type: DataType,
    taxa: usize,
    characters: usize,
    symbols: Symbols<'r>,
    rows: Lines<'r>,
}

impl<'r> View<'r> {
    /// The view of these bytes; 31 where they are no record.
    ///
    #[doc = example!()]
    /// # use inputs::example::RECORD;
    /// use nexus::{Refusal, View};
    /// assert!(View::of(RECORD.as_bytes()).is_ok());
    /// let refusal = View::of(b"taxa=2").expect_err("no record");
    /// assert_eq!(refusal.number, Refusal::NO_RECORD);
    /// ```
    pub fn of(bytes: &'r [u8]) -> Result<Self, Refusal> {
        // No taxon has an empty name, so that this is 31 or else 33.
        match lookup(bytes, b"") {
            Err(refusal) if refusal.number == Refusal::NO_RECORD => Err(refusal),
            _ => Ok(Self::judged(bytes)),
        }
    }

    /// The view of bytes that are a record.
    pub(crate) fn judged(bytes: &'r [u8]) -> Self {
        let mut lines = Lines::new(bytes);
        let data_type = match lines.value("datatype=") {
            b"DNA" => DataType::Dna,
            _ => DataType::Standard,
        };
        Self {
            bytes,
            data_type,
            taxa: lines.number("taxa="),
            characters: lines.number("characters="),
            symbols: Symbols::new(lines.value("symbols=")),
            rows: lines,
        }
    }

    /// The record's bytes.
    ///
    #[doc = example!()]
    /// # use inputs::example::RECORD;
    /// let view = nexus::View::of(RECORD.as_bytes())?;
    /// assert_eq!(view.as_bytes(), RECORD.as_bytes());
    /// # Ok::<(), nexus::Refusal>(())
    /// ```
    pub fn as_bytes(self) -> &'r [u8] {
        self.bytes
    }

    /// The kind of its data.
    ///
    #[doc = example!()]
    /// # use inputs::example::RECORD;
    /// let view = nexus::View::of(RECORD.as_bytes())?;
    /// assert_eq!(view.data_type(), nexus::DataType::Standard);
    /// # Ok::<(), nexus::Refusal>(())
    /// ```
    pub fn data_type(self) -> DataType {
        self.data_type
    }

    /// Its symbols, in their order.
    ///
    #[doc = example!()]
    /// # use inputs::example::RECORD;
    /// let view = nexus::View::of(RECORD.as_bytes())?;
    /// assert_eq!(view.symbols().as_str(), "01");
    /// # Ok::<(), nexus::Refusal>(())
    /// ```
    pub fn symbols(self) -> Symbols<'r> {
        self.symbols
    }

    /// How many taxa it has; at least one.
    ///
    #[doc = example!()]
    /// # use inputs::example::RECORD;
    /// let view = nexus::View::of(RECORD.as_bytes())?;
    /// assert_eq!(view.taxon_count(), 2);
    /// # Ok::<(), nexus::Refusal>(())
    /// ```
    pub fn taxon_count(self) -> usize {
        self.taxa
    }

    /// How many characters it has; at least one.
    ///
    #[doc = example!()]
    /// # use inputs::example::RECORD;
    /// let view = nexus::View::of(RECORD.as_bytes())?;
    /// assert_eq!(view.character_count(), 3);
    /// # Ok::<(), nexus::Refusal>(())
    /// ```
    pub fn character_count(self) -> usize {
        self.characters
    }

    /// Its taxa, in their order.
    ///
    #[doc = example!()]
    /// # use inputs::example::RECORD;
    /// let view = nexus::View::of(RECORD.as_bytes())?;
    /// for taxon in view.taxa() {
    ///     println!("{} {}: {:?}", taxon.number(), taxon.name(), taxon.cells());
    /// }
    /// # Ok::<(), nexus::Refusal>(())
    /// ```
    pub fn taxa(self) -> Taxa<'r> {
        Taxa::new(self.rows, self.taxa, self.characters, self.symbols)
    }

    /// The taxon with this number, if there are so many. It is found by walking over those before it.
    ///
    #[doc = example!()]
    /// # use inputs::example::RECORD;
    /// use nexus::{TaxonNumber, View};
    /// let view = View::of(RECORD.as_bytes())?;
    /// let first = view.taxon(TaxonNumber::FIRST).expect("a taxon");
    /// assert_eq!(first.name(), "a b");
    /// # Ok::<(), nexus::Refusal>(())
    /// ```
    pub fn taxon(self, number: TaxonNumber) -> Option<Taxon<'r>> {
        self.taxa().nth(number.index())
    }

    /// The cells of the taxon with this name; 33 where none has it. The case of ASCII letters does
    /// not matter; the name is given as it is, and not as the record escapes it.
    ///
    #[doc = example!()]
    /// # use inputs::example::RECORD;
    /// let view = nexus::View::of(RECORD.as_bytes())?;
    /// assert_eq!(view.find(b"c")?.as_bytes(), b"1 p1 0");
    /// # Ok::<(), nexus::Refusal>(())
    /// ```
    pub fn find(self, name: &[u8]) -> Result<Cells<'r>, Refusal> {
        let cells = lookup(self.bytes, name)?;
        Ok(Cells::new(cells, self.characters, self.symbols))
    }

    /// Its characters, in their order. The first is found by walking over the taxa.
    ///
    #[doc = example!()]
    /// # use inputs::example::RECORD;
    /// use nexus::{Ordering, View};
    /// let view = View::of(RECORD.as_bytes())?;
    /// assert!(view.characters().all(|character| character.ordering() == Ordering::Unordered));
    /// # Ok::<(), nexus::Refusal>(())
    /// ```
    pub fn characters(self) -> Characters<'r> {
        Characters::new(self.taxa().lines_behind(), self.characters)
    }

    /// The character with this number, if there are so many. It is found by walking over the taxa and
    /// the characters before it.
    ///
    #[doc = example!()]
    /// # use inputs::example::RECORD;
    /// use nexus::{CharacterNumber, View};
    /// let view = View::of(RECORD.as_bytes())?;
    /// assert!(view.character(CharacterNumber::FIRST).is_some());
    /// assert!(CharacterNumber::new(4).and_then(|number| view.character(number)).is_none());
    /// # Ok::<(), nexus::Refusal>(())
    /// ```
    pub fn character(self, number: CharacterNumber) -> Option<Character<'r>> {
        self.characters().nth(number.index())
    }
}

impl fmt::Debug for View<'_> {
    fn fmt(&self, f: &mut fmt::Formatter<'_>) -> fmt::Result {
        f.debug_struct("View")
            .field("data_type", &self.data_type)
            .field("symbols", &self.symbols)
            .field("taxa", &self.taxa())
            .field("characters", &self.characters())
            .finish()
    }
}
