//! The check of one question: what the calls answer and leave is what the oracle says. `reading` has
//! the call that reads, `writing` the one that writes, `finding` the lookup.

mod difference;
mod finding;
mod reading;
mod writing;

pub use difference::Difference;

use nexus::archive::nexus_read;

/// What the oracle says of a question.
#[derive(Clone, Copy, Debug, Eq, PartialEq)]
pub enum Met {
    /// The text is read, the record written, or the name found.
    Taken,
    Refused(u32),
    /// The oracle cannot bear it, so that nothing was compared.
    Beyond,
}

/// The call that reads, or another that is to be held against the oracle in its place: what it is
/// lent are the text, work memory, the buffer, and the three numbers.
pub type Read = dyn Fn(&[u8], &mut [u32], &mut [u8], &mut u32, &mut usize, &mut usize) -> usize;

/// Checks questions, one after another.
pub struct Checker {
    read: Box<Read>,
    /// Work memory as the last text has left it.
    left: Vec<u32>,
    pub calls: u64,
}

impl Checker {
    /// One that makes this call where it lends memory to the call that reads.
    pub fn of(read: Box<Read>) -> Self {
        Self {
            read,
            left: Vec::new(),
            calls: 0,
        }
    }
}

impl Default for Checker {
    fn default() -> Self {
        Self::of(Box::new(nexus_read))
    }
}
