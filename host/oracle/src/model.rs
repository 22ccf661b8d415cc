//! Part of rove's src/model.rs: `CharacterOrdering`. Left out are its `name`, the `Mk` and
//! `Ordered` models and their errors.

/// The adjacency of the character's states, independently of its ascertainment.
#[derive(Clone, Copy, Debug, Default, Eq, Ord, PartialEq, PartialOrd)]
pub enum CharacterOrdering {
    #[default]
    Unordered,
    Ordered,
}
