//! The proved NEXUS reader, for Rust. Its functions are those of the archive that
//! `tools/build nexus_c` writes; what they answer is proved, and written down in
//! crates/record/specs/Calls.antt. Where the archive was not there when this crate was built, a call
//! panics and says so.
//!
#![doc = example!()]
//! let text = b"#NEXUS BEGIN DATA; DIMENSIONS NTAX=1 NCHAR=2; MATRIX a 01; END;";
//! match nexus::read(text) {
//!     Ok(record) => println!("{}", String::from_utf8_lossy(record.as_bytes())),
//!     Err(refusal) => eprintln!("{refusal}"),
//! }
//! ```
//!
//! A record says what it holds, part by part; it can be written as a text again, and has a taxon's
//! cells by its name.
//!
#![doc = example!()]
//! use nexus::Cell;
//! let text = b"#NEXUS BEGIN DATA; DIMENSIONS NTAX=1 NCHAR=2; MATRIX a 0?; END;";
//! let record = nexus::read(text)?;
//! for taxon in record.taxa() {
//!     let missing = taxon.cells().filter(|cell| *cell == Cell::Missing).count();
//!     println!("{}: {missing} of {} cells missing", taxon.name(), record.character_count());
//! }
//! assert_eq!(record.cells(b"A")?, b"0 m");
//! assert_eq!(nexus::read(&record.write()?)?, record);
//! # Ok::<(), nexus::Refusal>(())
//! ```
//!
//! A host that allocates nothing lends the memory itself: see [`read_into`], [`write_into`],
//! [`lookup`] and [`View`].
//!
//! Besides what it is lent a call needs stack, at most [`STACK_NEEDED`] bytes. The main thread has
//! more, and so has a thread of [`std::thread`] unless it was given less. Where there is less the
//! program ends, as it does wherever a stack overflows.

#![deny(unsafe_code)]
#![warn(missing_docs)]

/// The line that opens an example of the documentation which makes a call. Where the archive is not
/// linked the example is compiled, and not run.
#[cfg(archive)]
macro_rules! example {
    () => {
        "```"
    };
}
#[cfg(not(archive))]
macro_rules! example {
    () => {
        "```no_run"
    };
}
use example;

#[cfg(not(archive))]
#[path = "absent.rs"]
mod functions;
#[cfg(archive)]
#[allow(unsafe_code)]
mod functions;

pub mod archive;
mod reader;
mod record;
mod refusal;
pub mod refusals;
mod view;

pub use reader::Reader;
pub use record::Record;
pub use refusal::Refusal;
pub use view::{
    Cell, Cells, Character, CharacterNumber, Characters, DataType, Ordering, State, StateLabels,
    States, Symbols, Taxa, Taxon, TaxonNumber, Text, TextBytes, View,
};

/// The longest text that is read, and the longest form that is written, in bytes.
///
/// ```
/// assert_eq!(nexus::TEXT_LIMIT, 1_048_576);
/// ```
pub const TEXT_LIMIT: usize = 1_048_576;

/// How many bytes of stack a call needs at most, whatever it is lent.
///
#[doc = example!()]
/// # use inputs::example::RECORD;
/// let thread = std::thread::Builder::new().stack_size(2 * nexus::STACK_NEEDED);
/// let call = || nexus::lookup(RECORD.as_bytes(), b"C").map(|cells| cells.len());
/// assert_eq!(thread.spawn(call)?.join().expect("the call ends"), Ok(6));
/// # Ok::<(), std::io::Error>(())
/// ```
pub const STACK_NEEDED: usize = 262_144;

/// How many numbers of work memory a text needs.
///
/// ```
/// assert_eq!(nexus::work_needed(b"#NEXUS"), 88);
/// ```
pub fn work_needed(text: &[u8]) -> usize {
    4 * text.len() + 64
}

/// Reads a text into lent memory: the length of its record, which then begins the buffer. The rest
/// of the buffer is as it was, and all of it where the text is refused. Whatever the memory held
/// before does not matter, and what work memory holds afterwards means nothing.
///
#[doc = example!()]
/// # use inputs::example::{RECORD, TEXT};
/// let (mut work, mut buffer) = ([0; 1_000], [0; 1_000]);
/// let length = nexus::read_into(TEXT.as_bytes(), &mut work, &mut buffer)?;
/// assert_eq!(&buffer[..length], RECORD.as_bytes());
/// # Ok::<(), nexus::Refusal>(())
/// ```
pub fn read_into(text: &[u8], work: &mut [u32], buffer: &mut [u8]) -> Result<usize, Refusal> {
    let (mut number, mut line, mut column) = (0, 0, 0);
    let length = archive::nexus_read(text, work, buffer, &mut number, &mut line, &mut column);
    match length {
        0 => Err(Refusal {
            number,
            line,
            column,
        }),
        _ => Ok(length),
    }
}

/// Reads a text into a record of its own; see [`Reader`] for many.
///
#[doc = example!()]
/// # use inputs::example::TEXT;
/// let record = nexus::read(TEXT.as_bytes())?;
/// assert_eq!(record.taxon_count(), 2);
/// # Ok::<(), nexus::Refusal>(())
/// ```
pub fn read(text: &[u8]) -> Result<Record, Refusal> {
    // A text that is too long is refused for that, whatever it is lent.
    let read = if text.len() > TEXT_LIMIT { &[] } else { text };
    let mut work = vec![0; work_needed(read)];
    let mut buffer = vec![0; longest_record(read.len())];
    let usual = usual_record(read);
    if usual > LONG {
        functions::large_pages(&mut buffer[..usual]);
    }
    let length = read_into(text, &mut work, &mut buffer)?;
    buffer.truncate(length);
    buffer.shrink_to_fit();
    Ok(Record { bytes: buffer })
}

/// Records for which a buffer in large pages is lent are longer.
const LONG: usize = 8 << 20;

/// No record of a text of so many bytes is longer. A byte of a row gives at most 9 (an `N` of DNA is `u0.1.2.3` and
/// a blank); each character, which has such a byte in each row, 46 in its own lines; a byte of a
/// name or label, with its share of that line, 9; and what is left is shorter than 256.
///
/// Most records are much shorter, and what nothing is written to takes no memory where the system hands
/// out zeros (`vec![0; ...]`). A buffer of this length saves time: where the longest that a record can be
/// has room, it is put without being measured first.
///
#[doc = example!()]
/// # use inputs::example::{RECORD, TEXT};
/// assert!(RECORD.len() <= nexus::longest_record(TEXT.len()));
/// ```
pub fn longest_record(length: usize) -> usize {
    64 * length + 256
}

/// Most records of a text are no longer, if it has as many characters as it seems to.
fn usual_record(text: &[u8]) -> usize {
    4 * text.len() + 46 * characters_guessed(text) + 256
}

/// How many characters a text seems to have: the number behind the first `NCHAR`, which is looked
/// for near its beginning.
fn characters_guessed(text: &[u8]) -> usize {
    const NEAR: usize = 1 << 16;
    let mut words = text[..text.len().min(NEAR)].windows(5);
    let Some(at) = words.position(|word| word.eq_ignore_ascii_case(b"NCHAR")) else {
        return 0;
    };
    let number = text[at + 5..]
        .iter()
        .skip_while(|byte| b" =".contains(byte));
    let digits = number
        .take(7)
        .map_while(|byte| char::from(*byte).to_digit(10));
    let guessed = digits.fold(0, |number, digit| 10 * number + digit as usize);
    guessed.min(text.len())
}

/// Writes the form of a record into lent memory: its length; it then begins the buffer. The rest of
/// the buffer is as it was, and all of it where the record is refused: by 31 where it is none, by 32
/// where its form is longer than a text may be, by 30 where it is longer than the buffer. Whatever
/// the memory held before does not matter.
///
#[doc = example!()]
/// # use inputs::example::{FORM, RECORD};
/// let mut buffer = [0; 1_000];
/// let length = nexus::write_into(RECORD.as_bytes(), &mut buffer)?;
/// assert_eq!(&buffer[..length], FORM.as_bytes());
/// # Ok::<(), nexus::Refusal>(())
/// ```
pub fn write_into(record: &[u8], buffer: &mut [u8]) -> Result<usize, Refusal> {
    let mut number = 0;
    match archive::nexus_write(record, buffer, &mut number) {
        0 => Err(Refusal::nowhere(number)),
        length => Ok(length),
    }
}

/// The cells of the taxon with this name: the stretch of the record behind `cells=`. It is refused by
/// 31 where this is no record, and by 33 where no taxon has the name. The case of ASCII letters does
/// not matter; the name is given as it is, and not as the record escapes it.
///
#[doc = example!()]
/// # use inputs::example::RECORD;
/// assert_eq!(nexus::lookup(RECORD.as_bytes(), b"c")?, b"1 p1 0");
/// # Ok::<(), nexus::Refusal>(())
/// ```
pub fn lookup<'record>(record: &'record [u8], name: &[u8]) -> Result<&'record [u8], Refusal> {
    let (mut number, mut start) = (0, 0);
    match archive::nexus_lookup(record, name, &mut number, &mut start) {
        0 => Err(Refusal::nowhere(number)),
        length => Ok(&record[start..start + length]),
    }
}
