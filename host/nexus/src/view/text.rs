//! Names and labels.

use std::borrow::Cow;
use std::fmt::{self, Write};
use std::iter::FusedIterator;

/// A name or a label, as its record escapes it: a newline is `\0` there, and a backslash `\1`.
/// What it hands out is read back. It is printed as it is, with its newlines.
///
#[doc = example!()]
/// # use inputs::example::TEXT;
/// let record = nexus::read(TEXT.as_bytes())?;
/// let names: Vec<String> = record.taxa().map(|taxon| taxon.name().to_string()).collect();
/// assert_eq!(names, ["a b", "C"]);
/// # Ok::<(), nexus::Refusal>(())
/// ```
#[derive(Clone, Copy, Eq, Hash, PartialEq)]
pub struct Text<'r> {
    escaped: &'r [u8],
}

impl<'r> Text<'r> {
    pub(super) fn new(escaped: &'r [u8]) -> Self {
        Self { escaped }
    }

    /// Its bytes, one after another.
    ///
    #[doc = example!()]
    /// # use inputs::example::TEXT;
    /// let record = nexus::read(TEXT.as_bytes())?;
    /// let first = record.taxa().next().expect("a taxon");
    /// assert!(first.name().bytes().eq(*b"a b"));
    /// # Ok::<(), nexus::Refusal>(())
    /// ```
    pub fn bytes(self) -> TextBytes<'r> {
        TextBytes { rest: self.escaped }
    }

    /// All its bytes; a copy only where something is escaped.
    ///
    #[doc = example!()]
    /// # use std::borrow::Cow;
    /// let text = br"#NEXUS BEGIN DATA; DIMENSIONS NTAX=1 NCHAR=1; MATRIX 'a\b' 0; END;";
    /// let record = nexus::read(text)?;
    /// let name = record.taxa().next().expect("a taxon").name();
    /// assert_eq!(name.to_bytes(), Cow::from(br"a\b".to_vec()));
    /// # Ok::<(), nexus::Refusal>(())
    /// ```
    pub fn to_bytes(self) -> Cow<'r, [u8]> {
        match self.escaped.contains(&b'\\') {
            true => Cow::Owned(self.bytes().collect()),
            false => Cow::Borrowed(self.escaped),
        }
    }

    /// Its bytes as the record has them, `\0` and `\1` as they are.
    ///
    #[doc = example!()]
    /// let text = br"#NEXUS BEGIN DATA; DIMENSIONS NTAX=1 NCHAR=1; MATRIX 'a\b' 0; END;";
    /// let record = nexus::read(text)?;
    /// let name = record.taxa().next().expect("a taxon").name();
    /// assert_eq!(name.escaped(), br"a\1b");
    /// # Ok::<(), nexus::Refusal>(())
    /// ```
    pub fn escaped(self) -> &'r [u8] {
        self.escaped
    }

    /// Hands on what is printed, piece by piece. What is not UTF-8, which no right record has, comes
    /// as U+FFFD.
    fn print(self, mut piece: impl FnMut(&str) -> fmt::Result) -> fmt::Result {
        let mut pieces = self.escaped.split(|&byte| byte == b'\\').enumerate();
        pieces.try_for_each(|(number, bytes)| {
            let bytes = match (number, bytes) {
                (1.., [code, rest @ ..]) => {
                    piece(if *code == b'0' { "\n" } else { "\\" })?;
                    rest
                }
                _ => bytes,
            };
            bytes.utf8_chunks().try_for_each(|chunk| {
                piece(chunk.valid())?;
                piece(if chunk.invalid().is_empty() {
                    ""
                } else {
                    "\u{fffd}"
                })
            })
        })
    }
}

impl fmt::Display for Text<'_> {
    fn fmt(&self, f: &mut fmt::Formatter<'_>) -> fmt::Result {
        self.print(|piece| f.write_str(piece))
    }
}

impl fmt::Debug for Text<'_> {
    fn fmt(&self, f: &mut fmt::Formatter<'_>) -> fmt::Result {
        f.write_char('"')?;
        self.print(|piece| write!(f, "{}", piece.escape_debug()))?;
        f.write_char('"')
    }
}

impl PartialEq<str> for Text<'_> {
    fn eq(&self, other: &str) -> bool {
        self.bytes().eq(other.bytes())
    }
}

impl PartialEq<&str> for Text<'_> {
    fn eq(&self, other: &&str) -> bool {
        *self == **other
    }
}

/// The bytes of a name or a label, `\0` and `\1` read back.
///
#[doc = example!()]
/// # use inputs::example::TEXT;
/// let record = nexus::read(TEXT.as_bytes())?;
/// let first = record.taxa().next().expect("a taxon");
/// let mut bytes: nexus::TextBytes = first.name().bytes();
/// assert_eq!(bytes.next(), Some(b'a'));
/// # Ok::<(), nexus::Refusal>(())
/// ```
#[derive(Clone)]
pub struct TextBytes<'r> {
    rest: &'r [u8],
}

impl Iterator for TextBytes<'_> {
    type Item = u8;

    fn next(&mut self) -> Option<u8> {
        let (byte, rest) = match self.rest {
            [] => return None,
            [b'\\', b'0', rest @ ..] => (b'\n', rest),
            [b'\\', _, rest @ ..] => (b'\\', rest),
            [byte, rest @ ..] => (*byte, rest),
        };
        self.rest = rest;
        Some(byte)
    }

    fn size_hint(&self) -> (usize, Option<usize>) {
        (self.rest.len().div_ceil(2), Some(self.rest.len()))
    }
}

impl FusedIterator for TextBytes<'_> {}

impl fmt::Debug for TextBytes<'_> {
    fn fmt(&self, f: &mut fmt::Formatter<'_>) -> fmt::Result {
        Text::new(self.rest).fmt(f)
    }
}
