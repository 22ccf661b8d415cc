//! The cells of a taxon.

use super::lines::split_at_first;
use super::states::{State, States, Symbols};

/// A cell: what a taxon has for a character. A set of one state is a set, and not that state.
///
#[doc = example!()]
/// # use inputs::example::TEXT;
/// use nexus::Cell;
/// let record = nexus::read(TEXT.as_bytes())?;
/// let mut known = 0;
/// for taxon in record.taxa() {
///     known += taxon.cells().filter(|cell| matches!(cell, Cell::State(_))).count();
/// }
/// assert_eq!(known, 3);
/// # Ok::<(), nexus::Refusal>(())
/// ```
#[derive(Clone, Debug, Eq, Hash, PartialEq)]
pub enum Cell<'r> {
    /// This state.
    State(State),
    /// One of these states; which of them is not known.
    Uncertain(States<'r>),
    /// All of these states.
    Polymorphic(States<'r>),
    /// Not known.
    Missing,
    /// A gap.
    Gap,
}

impl<'r> Cell<'r> {
    /// The cell that these bytes spell.
    fn spelled(bytes: &'r [u8], symbols: Symbols<'r>) -> Self {
        match bytes {
            b"m" => Self::Missing,
            b"g" => Self::Gap,
            [b'u', dotted @ ..] => Self::Uncertain(States::new(dotted, symbols)),
            [b'p', dotted @ ..] => Self::Polymorphic(States::new(dotted, symbols)),
            digits => Self::State(symbols.spelled(digits)),
        }
    }
}

/// The cells of a taxon: one for each character, in their order.
///
#[doc = example!()]
/// # use inputs::example::TEXT;
/// let record = nexus::read(TEXT.as_bytes())?;
/// let cells: nexus::Cells = record.find(b"C")?;
/// assert_eq!(cells.len(), 3);
/// # Ok::<(), nexus::Refusal>(())
/// ```
#[derive(Clone, Eq, Hash, PartialEq)]
pub struct Cells<'r> {
    rest: &'r [u8],
    left: usize,
    symbols: Symbols<'r>,
}

impl<'r> Cells<'r> {
    /// So many cells, which these bytes spell.
    pub(super) fn new(spelled: &'r [u8], count: usize, symbols: Symbols<'r>) -> Self {
        Self {
            rest: spelled,
            left: count,
            symbols,
        }
    }

    /// The cells that are left, as the record spells them.
    ///
    #[doc = example!()]
    /// # use inputs::example::TEXT;
    /// let record = nexus::read(TEXT.as_bytes())?;
    /// let mut cells = record.find(b"a b")?;
    /// assert_eq!(cells.as_bytes(), b"0 u0.1 m");
    /// cells.next();
    /// assert_eq!(cells.as_bytes(), b"u0.1 m");
    /// # Ok::<(), nexus::Refusal>(())
    /// ```
    pub fn as_bytes(&self) -> &'r [u8] {
        self.rest
    }
}

impl<'r> Iterator for Cells<'r> {
    type Item = Cell<'r>;

    fn next(&mut self) -> Option<Cell<'r>> {
        self.left = self.left.checked_sub(1)?;
        let (bytes, rest) = split_at_first(self.rest, b' ');
        self.rest = rest;
        Some(Cell::spelled(bytes, self.symbols))
    }

    fn size_hint(&self) -> (usize, Option<usize>) {
        (self.left, Some(self.left))
    }
}

counted!(Cells);
