//! Calls as examples: what they are given, what they answer, and how they are shown.

use std::fmt;

use crate::{Record, Refusal, lookup, read, read_into};

/// A call, with all that it is given beside its text or record.
///
/// ```
/// use nexus::refusals::{Call, entry};
/// let entry = entry(33).expect("an entry");
/// assert_eq!(entry.refused.call(), Call::Lookup("a_b"));
/// ```
#[derive(Clone, Copy, Debug, Eq, PartialEq)]
pub enum Call {
    /// A text is read, with memory that is long enough.
    Read,
    /// A text is read, with work memory of so many numbers and a record buffer of so many bytes.
    ReadInto {
        /// How many numbers of 32 bits the work memory has.
        work: usize,
        /// How many bytes the buffer has.
        buffer: usize,
    },
    /// A record is written, with a buffer that is long enough.
    Write,
    /// The cells of the taxon with this name are looked up in a record.
    Lookup(&'static str),
}

impl fmt::Display for Call {
    fn fmt(&self, f: &mut fmt::Formatter<'_>) -> fmt::Result {
        match self {
            Self::Read => write!(f, "a text is read"),
            Self::ReadInto { work, buffer } => write!(
                f,
                "a text is read with {work} numbers of work memory and a buffer of {buffer} bytes"
            ),
            Self::Write => write!(f, "a record is written"),
            Self::Lookup(name) => write!(f, "`{name}` is looked up in a record"),
        }
    }
}

/// An example: a call and its text or record. That may have a part that comes many times over.
///
/// ```
/// use nexus::refusals::{Example, entry};
/// let example: &Example = &entry(18).expect("an entry").refused;
/// assert!(example.to_string().starts_with("#NEXUS\n"));
/// ```
#[derive(Clone, Copy, Debug, Eq, PartialEq)]
pub struct Example {
    call: Call,
    start: &'static [u8],
    filler: u8,
    times: usize,
    end: &'static [u8],
}

impl Example {
    /// A call for this text or record.
    pub(super) const fn new(call: Call, content: &'static str) -> Self {
        Self::of_bytes(call, content.as_bytes())
    }

    /// A call for these bytes.
    pub(super) const fn of_bytes(call: Call, content: &'static [u8]) -> Self {
        Self {
            call,
            start: content,
            filler: 0,
            times: 0,
            end: b"",
        }
    }

    /// A text that is read.
    pub(super) const fn text(text: &'static str) -> Self {
        Self::new(Call::Read, text)
    }

    /// The same with so many copies of a byte behind it, and then this end.
    pub(super) const fn filled(mut self, filler: u8, times: usize, end: &'static str) -> Self {
        self.filler = filler;
        self.times = times;
        self.end = end.as_bytes();
        self
    }

    /// The call.
    ///
    /// ```
    /// use nexus::refusals::{Call, entry};
    /// assert_eq!(entry(18).expect("an entry").refused.call(), Call::Read);
    /// ```
    pub fn call(&self) -> Call {
        self.call
    }

    /// The text or record, whole.
    ///
    /// ```
    /// let entry = nexus::refusals::entry(1).expect("an entry");
    /// assert_eq!(entry.refused.bytes().len(), nexus::TEXT_LIMIT + 1);
    /// ```
    pub fn bytes(&self) -> Vec<u8> {
        let mut bytes = self.start.to_vec();
        bytes.resize(self.start.len() + self.times, self.filler);
        bytes.extend(self.end);
        bytes
    }

    /// Makes the call: the record, form or cells that it gives, or its refusal.
    ///
    #[doc = example!()]
    /// let entry = nexus::refusals::entry(33).expect("an entry");
    /// assert_eq!(entry.refused.ask(), Err(entry.refusal()));
    /// assert_eq!(entry.mended.ask(), Ok(b"0".to_vec()));
    /// ```
    pub fn ask(&self) -> Result<Vec<u8>, Refusal> {
        let bytes = self.bytes();
        match self.call {
            Call::Read => read(&bytes).map(Record::into_bytes),
            Call::ReadInto { work, buffer } => {
                let (mut work, mut buffer) = (vec![0; work], vec![0; buffer]);
                let length = read_into(&bytes, &mut work, &mut buffer)?;
                buffer.truncate(length);
                Ok(buffer)
            }
            Call::Write => Record::from_bytes(bytes)?.write(),
            Call::Lookup(name) => lookup(&bytes, name.as_bytes()).map(<[u8]>::to_vec),
        }
    }
}

impl fmt::Display for Example {
    /// The text or record as a reader can see it: a part that comes many times over is counted in
    /// brackets, and bytes that are not UTF-8 are shown by their value.
    fn fmt(&self, f: &mut fmt::Formatter<'_>) -> fmt::Result {
        show(f, self.start)?;
        if self.times > 0 {
            write!(f, "({} times {:?})", self.times, char::from(self.filler))?;
        }
        show(f, self.end)
    }
}

fn show(f: &mut fmt::Formatter<'_>, bytes: &[u8]) -> fmt::Result {
    bytes.utf8_chunks().try_for_each(|chunk| {
        f.write_str(chunk.valid())?;
        let mut invalid = chunk.invalid().iter();
        invalid.try_for_each(|byte| write!(f, "<{byte:02X}>"))
    })
}
