//! The taxa of a record.

use std::fmt;

use super::cells::{Cell, Cells};
use super::lines::Lines;
use super::numbers::{CharacterNumber, TaxonNumber};
use super::states::Symbols;
use super::text::Text;

/// A taxon: its number, its name, and its cells.
///
#[doc = example!()]
/// # use inputs::example::TEXT;
/// let record = nexus::read(TEXT.as_bytes())?;
/// let taxon: nexus::Taxon = record.taxa().last().expect("a taxon");
/// assert_eq!(taxon.name(), "C");
/// # Ok::<(), nexus::Refusal>(())
/// ```
#[derive(Clone, Copy, Eq, Hash, PartialEq)]
pub struct Taxon<'r> {
    number: TaxonNumber,
    name: Text<'r>,
    cells: &'r [u8],
    characters: usize,
    symbols: Symbols<'r>,
}

impl<'r> Taxon<'r> {
    /// Its number, counting from 1: where it stands in the record.
    ///
    #[doc = example!()]
    /// # use inputs::example::TEXT;
    /// let record = nexus::read(TEXT.as_bytes())?;
    /// let taxon = record.taxa().last().expect("a taxon");
    /// assert_eq!(taxon.number().get(), 2);
    /// # Ok::<(), nexus::Refusal>(())
    /// ```
    pub fn number(self) -> TaxonNumber {
        self.number
    }

    /// Its name.
    ///
    #[doc = example!()]
    /// # use inputs::example::TEXT;
    /// let record = nexus::read(TEXT.as_bytes())?;
    /// let taxon = record.taxa().next().expect("a taxon");
    /// assert_eq!(taxon.name(), "a b");
    /// # Ok::<(), nexus::Refusal>(())
    /// ```
    pub fn name(self) -> Text<'r> {
        self.name
    }

    /// Its cells, one for each character.
    ///
    #[doc = example!()]
    /// # use inputs::example::TEXT;
    /// let record = nexus::read(TEXT.as_bytes())?;
    /// let taxon = record.taxa().next().expect("a taxon");
    /// assert_eq!(taxon.cells().last(), Some(nexus::Cell::Missing));
    /// # Ok::<(), nexus::Refusal>(())
    /// ```
    pub fn cells(self) -> Cells<'r> {
        Cells::new(self.cells, self.characters, self.symbols)
    }

    /// Its cell for the character with this number, if the record has so many. It is found by walking
    /// over those before it.
    ///
    #[doc = example!()]
    /// # use inputs::example::TEXT;
    /// use nexus::{Cell, CharacterNumber};
    /// let record = nexus::read(TEXT.as_bytes())?;
    /// let taxon = record.taxa().next().expect("a taxon");
    /// let third = CharacterNumber::new(3).expect("a number");
    /// assert_eq!(taxon.cell(third), Some(Cell::Missing));
    /// # Ok::<(), nexus::Refusal>(())
    /// ```
    pub fn cell(self, character: CharacterNumber) -> Option<Cell<'r>> {
        self.cells().nth(character.index())
    }
}

impl fmt::Debug for Taxon<'_> {
    fn fmt(&self, f: &mut fmt::Formatter<'_>) -> fmt::Result {
        f.debug_struct("Taxon")
            .field("number", &self.number)
            .field("name", &self.name)
            .field("cells", &self.cells())
            .finish()
    }
}

/// The taxa of a record, in its order.
///
#[doc = example!()]
/// # use inputs::example::TEXT;
/// let record = nexus::read(TEXT.as_bytes())?;
/// let taxa: nexus::Taxa = record.taxa();
/// assert_eq!(taxa.len(), 2);
/// # Ok::<(), nexus::Refusal>(())
/// ```
#[derive(Clone)]
pub struct Taxa<'r> {
    lines: Lines<'r>,
    next: TaxonNumber,
    left: usize,
    characters: usize,
    symbols: Symbols<'r>,
}

impl<'r> Taxa<'r> {
    /// So many taxa with so many cells each, which these lines spell.
    pub(super) fn new(
        lines: Lines<'r>,
        count: usize,
        characters: usize,
        symbols: Symbols<'r>,
    ) -> Self {
        Self {
            lines,
            next: TaxonNumber::FIRST,
            left: count,
            characters,
            symbols,
        }
    }

    /// The lines behind all of them.
    pub(super) fn lines_behind(mut self) -> Lines<'r> {
        self.by_ref().for_each(drop);
        self.lines
    }
}

impl<'r> Iterator for Taxa<'r> {
    type Item = Taxon<'r>;

    fn next(&mut self) -> Option<Taxon<'r>> {
        self.left = self.left.checked_sub(1)?;
        let number = self.next;
        self.next = number.next();
        Some(Taxon {
            number,
            name: Text::new(self.lines.value("name=")),
            cells: self.lines.value("cells="),
            characters: self.characters,
            symbols: self.symbols,
        })
    }

    fn size_hint(&self) -> (usize, Option<usize>) {
        (self.left, Some(self.left))
    }
}

counted!(Taxa);
