//! The stretch of a record that holds a taxon's cells.

use crate::record::{unescape, unspell};

/// A stretch of the record's bytes.
#[derive(Clone, Copy, Debug, Eq, PartialEq)]
pub struct Stretch {
    pub start: usize,
    pub length: usize,
}

/// Where the cells of the taxon with this name stand in the record, or the refusal's number:
/// 31 if it is no record, 33 if no taxon has the name.
pub fn lookup(name: &[u8], record: &[u8]) -> Result<Stretch, u32> {
    let reading = unspell(record).ok_or(31_u32)?;
    // After the four lines of the head each taxon has two, its name and its cells.
    let mut lines = Lines { record, at: 0 };
    for _ in 0..4 {
        lines.next();
    }
    for _ in reading.taxa() {
        let named = lines.next();
        let cells = lines.next();
        let value = &record[named.start + "name=".len()..][..named.length - "name=".len()];
        let own = unescape(value).expect("a record's names can be read back");
        if own.as_bytes().eq_ignore_ascii_case(name) {
            let key = "cells=".len();
            return Ok(Stretch {
                start: cells.start + key,
                length: cells.length - key,
            });
        }
    }
    Err(33)
}

struct Lines<'a> {
    record: &'a [u8],
    at: usize,
}

impl Lines<'_> {
    /// The next line, its LF left out.
    fn next(&mut self) -> Stretch {
        let start = self.at;
        let rest = &self.record[start..];
        let length = rest
            .iter()
            .position(|&byte| byte == b'\n')
            .expect("a record's lines end with LF");
        self.at = start + length + 1;
        Stretch { start, length }
    }
}
