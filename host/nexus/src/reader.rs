//! One text after another in the same memory.

use crate::{Refusal, TEXT_LIMIT, View, functions, longest_record, read_into, usual_record};

/// The large page of the system, in bytes. Memory begins at one, so that it can have them.
const LARGE: usize = 2 << 20;

/// From this length on a text is read in large pages.
const LONG: usize = 128 << 10;

/// Reads one text after another, and lends them the same memory. It has room for every text that is
/// read and for its record; of this only what is written to is used, and most texts use little.
///
#[doc = example!()]
/// # use inputs::example::{RECORD, TEXT};
/// let mut reader = nexus::Reader::new();
/// assert!(reader.read(b"no text").is_err());
/// assert_eq!(reader.read(TEXT.as_bytes())?.as_bytes(), RECORD.as_bytes());
/// # Ok::<(), nexus::Refusal>(())
/// ```
#[derive(Clone, Debug)]
pub struct Reader {
    work: Vec<u32>,
    buffer: Vec<u8>,
}

impl Reader {
    /// A reader that has read nothing yet.
    ///
    /// ```
    /// let reader = nexus::Reader::new();
    /// ```
    pub fn new() -> Self {
        let work = 4 * TEXT_LIMIT + 64 + LARGE / size_of::<u32>();
        let buffer = longest_record(TEXT_LIMIT) + LARGE;
        Self {
            work: vec![0; work],
            buffer: vec![0; buffer],
        }
    }

    /// The record of a text, until the next is read.
    ///
    #[doc = example!()]
    /// # use inputs::example::TEXT;
    /// let mut reader = nexus::Reader::new();
    /// assert_eq!(reader.read(TEXT.as_bytes())?.taxon_count(), 2);
    /// # Ok::<(), nexus::Refusal>(())
    /// ```
    pub fn read(&mut self, text: &[u8]) -> Result<View<'_>, Refusal> {
        let start = self.work.as_ptr().align_offset(LARGE);
        let work = &mut self.work[start..];
        let start = self.buffer.as_ptr().align_offset(LARGE);
        let buffer = &mut self.buffer[start..];
        if (LONG..=TEXT_LIMIT).contains(&text.len()) {
            functions::large_pages(&mut work[..4 * text.len()]);
            functions::large_pages(&mut buffer[..usual_record(text)]);
        }
        let length = read_into(text, work, buffer)?;
        Ok(View::judged(&buffer[..length]))
    }
}

impl Default for Reader {
    fn default() -> Self {
        Self::new()
    }
}
