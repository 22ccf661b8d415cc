//! The archive's functions as include/nexus.h has them, but with slices for pointers and lengths.
//! Each panics where the archive is not linked.
//!
#![doc = example!()]
//! let mut number = 0;
//! let length = nexus::archive::nexus_write(b"no record", &mut [], &mut number);
//! assert_eq!((length, number), (0, 31));
//! ```

/// Is the archive linked?
///
/// ```
/// if !nexus::archive::LINKED {
///     eprintln!("{}", nexus::archive::NOT_LINKED);
/// }
/// ```
pub const LINKED: bool = cfg!(archive);

/// What to say where it is not: what is missing, and how to make it.
///
/// ```
/// assert!(nexus::archive::NOT_LINKED.contains("target/staticlib/libnexus_c.a"));
/// ```
pub const NOT_LINKED: &str = env!("NEXUS_MISSING");

/// Answers the length of the text's record, 0 where the text is refused. What the three numbers held
/// before does not matter; afterwards they are the refusal's number, line and column.
///
#[doc = example!()]
/// use nexus::archive::nexus_read;
/// let (mut work, mut buffer) = ([0; 100], [0; 100]);
/// let (mut number, mut line, mut column) = (0, 0, 0);
/// let length = nexus_read(b"x", &mut work, &mut buffer, &mut number, &mut line, &mut column);
/// assert_eq!((length, number, line, column), (0, 6, 1, 1));
/// ```
#[doc(inline)]
pub use crate::functions::nexus_read;

/// Answers the length of the record's form, 0 where the record is refused. What the number held
/// before does not matter; afterwards it is the refusal's.
///
#[doc = example!()]
/// use nexus::archive::nexus_write;
/// let mut number = 0;
/// assert_eq!(nexus_write(b"no record", &mut [], &mut number), 0);
/// assert_eq!(number, 31);
/// ```
#[doc(inline)]
pub use crate::functions::nexus_write;

/// Answers the length of the stretch that has the cells, 0 where the name is refused. What the two
/// numbers held before does not matter; afterwards they are the refusal's, or 0, and where the stretch
/// begins.
///
#[doc = example!()]
/// # use inputs::example::RECORD;
/// use nexus::archive::nexus_lookup;
/// let (mut number, mut start) = (0, 0);
/// let length = nexus_lookup(RECORD.as_bytes(), b"C", &mut number, &mut start);
/// assert_eq!(&RECORD[start..start + length], "1 p1 0");
/// ```
#[doc(inline)]
pub use crate::functions::nexus_lookup;
