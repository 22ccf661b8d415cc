//! Symbols, states and sets of states.

use std::fmt;

use super::lines::{number, split_at_first};

/// A record's symbols, in their order: a state's number is its symbol's place here, counting from
/// 0. All are ASCII.
///
#[doc = example!()]
/// # use inputs::example::TEXT;
/// let record = nexus::read(TEXT.as_bytes())?;
/// assert_eq!(record.symbols().as_str(), "01");
/// # Ok::<(), nexus::Refusal>(())
/// ```
#[derive(Clone, Copy, Eq, Hash, PartialEq)]
pub struct Symbols<'r> {
    bytes: &'r [u8],
}

impl<'r> Symbols<'r> {
    pub(super) fn new(bytes: &'r [u8]) -> Self {
        Self { bytes }
    }

    /// How many there are; at least two.
    ///
    #[doc = example!()]
    /// # use inputs::example::TEXT;
    /// let record = nexus::read(TEXT.as_bytes())?;
    /// assert_eq!(record.symbols().count(), 2);
    /// # Ok::<(), nexus::Refusal>(())
    /// ```
    pub fn count(self) -> usize {
        self.bytes.len()
    }

    /// The symbols, one behind another.
    ///
    #[doc = example!()]
    /// # use inputs::example::TEXT;
    /// let record = nexus::read(TEXT.as_bytes())?;
    /// assert_eq!(record.symbols().as_str(), "01");
    /// # Ok::<(), nexus::Refusal>(())
    /// ```
    pub fn as_str(self) -> &'r str {
        std::str::from_utf8(self.bytes).unwrap_or_default()
    }

    /// All states that a cell of the record may have, in order.
    ///
    #[doc = example!()]
    /// # use inputs::example::TEXT;
    /// let record = nexus::read(TEXT.as_bytes())?;
    /// let last = record.symbols().states().last().expect("a state");
    /// assert_eq!((last.number(), last.symbol()), (1, '1'));
    /// # Ok::<(), nexus::Refusal>(())
    /// ```
    pub fn states(self) -> impl ExactSizeIterator<Item = State> + Clone + fmt::Debug + use<'r> {
        self.bytes.iter().enumerate().map(state)
    }

    /// The state that these digits spell.
    pub(super) fn spelled(self, digits: &[u8]) -> State {
        let number = number(digits);
        state((number, self.bytes.get(number).unwrap_or(&b'?')))
    }
}

fn state((number, symbol): (usize, &u8)) -> State {
    State {
        number: number as u8,
        symbol: *symbol,
    }
}

impl fmt::Display for Symbols<'_> {
    fn fmt(&self, f: &mut fmt::Formatter<'_>) -> fmt::Result {
        self.as_str().fmt(f)
    }
}

impl fmt::Debug for Symbols<'_> {
    fn fmt(&self, f: &mut fmt::Formatter<'_>) -> fmt::Result {
        self.as_str().fmt(f)
    }
}

/// A state: its number, and the symbol that the record has for it.
///
#[doc = example!()]
/// # use inputs::example::TEXT;
/// use nexus::Cell;
/// let record = nexus::read(TEXT.as_bytes())?;
/// let last = record.find(b"C")?.last();
/// let Some(Cell::State(state)) = last else { panic!("{last:?}") };
/// assert_eq!((state.number(), state.symbol()), (0, '0'));
/// # Ok::<(), nexus::Refusal>(())
/// ```
#[derive(Clone, Copy, Eq, Hash, PartialEq)]
pub struct State {
    number: u8,
    symbol: u8,
}

impl State {
    /// Its number, which counts from 0: the place of its symbol among the record's.
    ///
    #[doc = example!()]
    /// # use inputs::example::TEXT;
    /// let record = nexus::read(TEXT.as_bytes())?;
    /// let numbers = record.symbols().states().map(|state| state.number());
    /// assert!(numbers.eq([0, 1]));
    /// # Ok::<(), nexus::Refusal>(())
    /// ```
    pub fn number(self) -> usize {
        self.number.into()
    }

    /// Its symbol, as the text has declared it.
    ///
    #[doc = example!()]
    /// # use inputs::example::TEXT;
    /// let record = nexus::read(TEXT.as_bytes())?;
    /// let symbols = record.symbols().states().map(|state| state.symbol());
    /// assert!(symbols.eq(['0', '1']));
    /// # Ok::<(), nexus::Refusal>(())
    /// ```
    pub fn symbol(self) -> char {
        self.symbol.into()
    }
}

impl fmt::Debug for State {
    fn fmt(&self, f: &mut fmt::Formatter<'_>) -> fmt::Result {
        f.debug_struct("State")
            .field("number", &self.number)
            .field("symbol", &self.symbol())
            .finish()
    }
}

/// The states of a set, by rising numbers; at least one.
///
#[doc = example!()]
/// # use inputs::example::TEXT;
/// use nexus::Cell;
/// let record = nexus::read(TEXT.as_bytes())?;
/// let second = record.find(b"a b")?.nth(1);
/// let Some(Cell::Uncertain(states)) = second else { panic!("{second:?}") };
/// assert!(states.map(|state| state.symbol()).eq(['0', '1']));
/// # Ok::<(), nexus::Refusal>(())
/// ```
#[derive(Clone, Eq, Hash, PartialEq)]
pub struct States<'r> {
    rest: &'r [u8],
    symbols: Symbols<'r>,
}

impl<'r> States<'r> {
    /// The set that these numbers, joined by dots, spell.
    pub(super) fn new(dotted: &'r [u8], symbols: Symbols<'r>) -> Self {
        Self {
            rest: dotted,
            symbols,
        }
    }
}

impl Iterator for States<'_> {
    type Item = State;

    fn next(&mut self) -> Option<State> {
        if self.rest.is_empty() {
            return None;
        }
        let (digits, rest) = split_at_first(self.rest, b'.');
        self.rest = rest;
        Some(self.symbols.spelled(digits))
    }

    fn size_hint(&self) -> (usize, Option<usize>) {
        let dots = self.rest.iter().filter(|&&byte| byte == b'.').count();
        let left = dots + usize::from(!self.rest.is_empty());
        (left, Some(left))
    }
}

counted!(States);
