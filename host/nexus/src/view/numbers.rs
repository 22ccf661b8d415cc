//! The numbers of taxa and of characters, each a type of its own.

use std::fmt;
use std::num::NonZeroUsize;

/// A number that counts from 1, by its name and its description.
macro_rules! count_from_one {
    ($(#[$description:meta])* $name:ident) => {
        $(#[$description])*
        #[derive(Clone, Copy, Debug, Eq, Hash, Ord, PartialEq, PartialOrd)]
        pub struct $name(NonZeroUsize);

        impl $name {
            /// The number of the first.
            ///
            /// ```
            #[doc = concat!("assert_eq!(nexus::", stringify!($name), "::FIRST.get(), 1);")]
            /// ```
            pub const FIRST: Self = Self(NonZeroUsize::MIN);

            /// This number, counting from 1; 0 is none.
            ///
            /// ```
            #[doc = concat!("use nexus::", stringify!($name), " as Number;")]
            /// assert_eq!(Number::new(3).map(Number::get), Some(3));
            /// assert_eq!(Number::new(0), None);
            /// ```
            pub const fn new(number: usize) -> Option<Self> {
                match NonZeroUsize::new(number) {
                    Some(number) => Some(Self(number)),
                    None => None,
                }
            }

            /// The number, counting from 1.
            ///
            /// ```
            #[doc = concat!("use nexus::", stringify!($name), " as Number;")]
            /// assert_eq!(Number::FIRST.get(), 1);
            /// ```
            pub const fn get(self) -> usize {
                self.0.get()
            }

            /// How many stand before it: its place in a list, counting from 0.
            ///
            /// ```
            #[doc = concat!("use nexus::", stringify!($name), " as Number;")]
            /// assert_eq!(Number::FIRST.index(), 0);
            /// ```
            pub const fn index(self) -> usize {
                self.0.get() - 1
            }

            /// The number of the next.
            pub(super) const fn next(self) -> Self {
                Self(self.0.saturating_add(1))
            }
        }

        impl fmt::Display for $name {
            fn fmt(&self, f: &mut fmt::Formatter<'_>) -> fmt::Result {
                self.0.fmt(f)
            }
        }
    };
}

count_from_one! {
    /// The number of a taxon in its record. It counts from 1, as the documents do, and is no
    /// character's number.
    ///
    /// ```
    /// use nexus::TaxonNumber;
    /// assert_eq!(TaxonNumber::FIRST.to_string(), "1");
    /// ```
    ///
    /// ```compile_fail
    /// let taxon: nexus::TaxonNumber = nexus::CharacterNumber::FIRST;
    /// ```
    TaxonNumber
}

count_from_one! {
    /// The number of a character in its record. It counts from 1, as the documents do, and is no
    /// taxon's number.
    ///
    /// ```
    /// use nexus::CharacterNumber;
    /// assert_eq!(CharacterNumber::FIRST.to_string(), "1");
    /// ```
    ///
    /// ```compile_fail
    /// let character: nexus::CharacterNumber = nexus::TaxonNumber::FIRST;
    /// ```
    CharacterNumber
}
