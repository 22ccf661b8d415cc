//! The characters of a record.

use std::fmt;

use super::lines::Lines;
use super::numbers::CharacterNumber;
use super::text::Text;

/// How a character's states stand to each other.
///
/// ```
/// use nexus::Ordering;
/// assert_eq!(Ordering::Ordered.to_string(), "ORD");
/// ```
#[derive(Clone, Copy, Debug, Eq, Hash, PartialEq)]
pub enum Ordering {
    /// Any state may change into any other: `UNORD`.
    Unordered,
    /// The states change along their order: `ORD`.
    Ordered,
}

impl Ordering {
    /// The word that records and texts have for it.
    ///
    /// ```
    /// use nexus::Ordering;
    /// assert_eq!(Ordering::Unordered.word(), "UNORD");
    /// ```
    pub fn word(self) -> &'static str {
        match self {
            Self::Unordered => "UNORD",
            Self::Ordered => "ORD",
        }
    }
}

impl fmt::Display for Ordering {
    fn fmt(&self, f: &mut fmt::Formatter<'_>) -> fmt::Result {
        f.pad(self.word())
    }
}

/// A character: its number, its label, its type, and the labels of its states.
///
#[doc = example!()]
/// let text = b"#NEXUS BEGIN DATA; DIMENSIONS NTAX=1 NCHAR=1;
///     CHARSTATELABELS 1 wing / absent present; MATRIX a 0; END;";
/// let record = nexus::read(text)?;
/// let character: nexus::Character = record.characters().next().expect("a character");
/// assert!(character.label().is_some_and(|label| label == "wing"));
/// # Ok::<(), nexus::Refusal>(())
/// ```
#[derive(Clone, Copy, Eq, Hash, PartialEq)]
pub struct Character<'r> {
    number: CharacterNumber,
    label: Text<'r>,
    ordering: Ordering,
    states: Lines<'r>,
    state_count: usize,
}

impl<'r> Character<'r> {
    /// The character that these lines spell. They are then those behind it.
    fn spelled(lines: &mut Lines<'r>, number: CharacterNumber) -> Self {
        let spelled = lines.number("character=");
        debug_assert_eq!(spelled, number.get());
        let label = Text::new(lines.value("label="));
        let ordering = match lines.value("order=") {
            b"ORD" => Ordering::Ordered,
            _ => Ordering::Unordered,
        };
        let state_count = lines.number("states=");
        let states = *lines;
        for _ in 0..state_count {
            lines.value("state=");
        }
        Self {
            number,
            label,
            ordering,
            states,
            state_count,
        }
    }

    /// Its number, counting from 1.
    ///
    #[doc = example!()]
    /// # use inputs::example::TEXT;
    /// let record = nexus::read(TEXT.as_bytes())?;
    /// let last = record.characters().last().expect("a character");
    /// assert_eq!(last.number().get(), 3);
    /// # Ok::<(), nexus::Refusal>(())
    /// ```
    pub fn number(self) -> CharacterNumber {
        self.number
    }

    /// Its label, if it has one.
    ///
    #[doc = example!()]
    /// # use inputs::example::TEXT;
    /// let record = nexus::read(TEXT.as_bytes())?;
    /// assert!(record.characters().all(|character| character.label().is_none()));
    /// # Ok::<(), nexus::Refusal>(())
    /// ```
    pub fn label(self) -> Option<Text<'r>> {
        (!self.label.escaped().is_empty()).then_some(self.label)
    }

    /// Its type.
    ///
    #[doc = example!()]
    /// let text = b"#NEXUS BEGIN DATA; DIMENSIONS NTAX=1 NCHAR=2; MATRIX a 01; END;
    ///     BEGIN ASSUMPTIONS; TYPESET * t = ORD: 2; END;";
    /// let record = nexus::read(text)?;
    /// let types = record.characters().map(|character| character.ordering().word());
    /// assert!(types.eq(["UNORD", "ORD"]));
    /// # Ok::<(), nexus::Refusal>(())
    /// ```
    pub fn ordering(self) -> Ordering {
        self.ordering
    }

    /// The labels of its states, in the order of the symbols. There may be fewer than symbols, or
    /// none.
    ///
    #[doc = example!()]
    /// let text = b"#NEXUS BEGIN DATA; DIMENSIONS NTAX=1 NCHAR=1;
    ///     CHARSTATELABELS 1 wing / absent present; MATRIX a 0; END;";
    /// let record = nexus::read(text)?;
    /// let character = record.characters().next().expect("a character");
    /// let labels: Vec<_> = character.state_labels().collect();
    /// assert_eq!(labels, ["absent", "present"]);
    /// # Ok::<(), nexus::Refusal>(())
    /// ```
    pub fn state_labels(self) -> StateLabels<'r> {
        StateLabels {
            lines: self.states,
            left: self.state_count,
        }
    }
}

impl fmt::Debug for Character<'_> {
    fn fmt(&self, f: &mut fmt::Formatter<'_>) -> fmt::Result {
        f.debug_struct("Character")
            .field("number", &self.number)
            .field("label", &self.label())
            .field("ordering", &self.ordering)
            .field("state_labels", &self.state_labels())
            .finish()
    }
}

/// The labels of a character's states.
///
#[doc = example!()]
/// # use inputs::example::TEXT;
/// let record = nexus::read(TEXT.as_bytes())?;
/// let first = record.characters().next().expect("a character");
/// let labels: nexus::StateLabels = first.state_labels();
/// assert_eq!(labels.len(), 0);
/// # Ok::<(), nexus::Refusal>(())
/// ```
#[derive(Clone)]
pub struct StateLabels<'r> {
    lines: Lines<'r>,
    left: usize,
}

impl<'r> Iterator for StateLabels<'r> {
    type Item = Text<'r>;

    fn next(&mut self) -> Option<Text<'r>> {
        self.left = self.left.checked_sub(1)?;
        Some(Text::new(self.lines.value("state=")))
    }

    fn size_hint(&self) -> (usize, Option<usize>) {
        (self.left, Some(self.left))
    }
}

counted!(StateLabels);

/// The characters of a record, in order.
///
#[doc = example!()]
/// # use inputs::example::TEXT;
/// let record = nexus::read(TEXT.as_bytes())?;
/// let characters: nexus::Characters = record.characters();
/// assert_eq!(characters.len(), 3);
/// # Ok::<(), nexus::Refusal>(())
/// ```
#[derive(Clone)]
pub struct Characters<'r> {
    lines: Lines<'r>,
    next: CharacterNumber,
    left: usize,
}

impl<'r> Characters<'r> {
    /// So many characters, which these lines spell.
    pub(super) fn new(lines: Lines<'r>, count: usize) -> Self {
        Self {
            lines,
            next: CharacterNumber::FIRST,
            left: count,
        }
    }
}

impl<'r> Iterator for Characters<'r> {
    type Item = Character<'r>;

    fn next(&mut self) -> Option<Character<'r>> {
        self.left = self.left.checked_sub(1)?;
        let number = self.next;
        self.next = number.next();
        Some(Character::spelled(&mut self.lines, number))
    }

    fn size_hint(&self) -> (usize, Option<usize>) {
        (self.left, Some(self.left))
    }
}

counted!(Characters);
