//! The calls that write and look up, on records of texts.

use std::hint::black_box;

use nexus::{Refusal, lookup, read, write_into};
use oracle::answer::{self, Answer, ENOUGH};
use oracle::record::unspell;

use crate::{SHAPES, TURNS, Turns, begin};

/// A name that no taxon has.
pub const ABSENT: &[u8] = b"no such taxon";

pub fn print() {
    println!(
        "{:36} {:>9} {:>9} {:>9} {:>9} {:>9}",
        "records", "bytes", "write", "first", "last", "absent"
    );
    for (name, size, text) in SHAPES {
        let Ok(record) = read(&text(*size)) else {
            continue;
        };
        begin(name);
        let bytes = record.as_bytes();
        let best = Times::best(name, bytes);
        let a_byte = |seconds: f64| seconds * 1e9 / bytes.len() as f64;
        println!(
            "{:9} {:9.3} {:9.3} {:9.3} {:9.3}",
            bytes.len(),
            a_byte(best.write),
            a_byte(best.first),
            a_byte(best.last),
            a_byte(best.absent),
        );
    }
    println!(
        "write; first, last, absent: looking up the first taxon's name, the last one's, and one that no \
        taxon has;\nnanoseconds a byte of the record, best of turns as above"
    );
}

/// Seconds.
pub struct Times {
    pub write: f64,
    first: f64,
    last: f64,
    pub absent: f64,
}

impl Times {
    /// The best times for a record, once the oracle agrees on it. The form may be too long to be
    /// written, which is found out only once it was measured.
    pub fn best(what: &str, record: &[u8]) -> Self {
        let reading = unspell(record).expect("a record");
        let (first, last) = match reading.taxa() {
            [only] => (only, only),
            [first, .., last] => (first, last),
            [] => unreachable!("a record has a taxon"),
        };
        Self {
            write: write(what, record),
            first: find(what, first.as_bytes(), record),
            last: find(what, last.as_bytes(), record),
            absent: find(what, ABSENT, record),
        }
    }
}

fn write(what: &str, record: &[u8]) -> f64 {
    let expected = match answer::write(record, ENOUGH) {
        Answer::Bytes(form) => Ok(form),
        Answer::Refused(refusal) => Err(refusal.number),
        Answer::Beyond(_) => unreachable!("no record is beyond the oracle"),
    };
    let mut buffer = vec![0; nexus::TEXT_LIMIT];
    let mut turns = Turns::new();
    let first = turns.turn(|| write_into(black_box(record), &mut buffer));
    let given = first.expect("a first turn").map_err(number);
    let given = given.map(|length| buffer[..length].to_vec());
    assert!(given == expected, "{what}: the forms differ");
    for _ in 1..TURNS {
        turns.turn(|| write_into(black_box(record), &mut buffer));
    }
    turns.best
}

fn find(what: &str, name: &[u8], record: &[u8]) -> f64 {
    let expected = oracle::lookup::lookup(name, record);
    let mut turns = Turns::new();
    let first = turns.turn(|| lookup(black_box(record), black_box(name)));
    let given = first.expect("a first turn").map_err(number);
    let expected = expected.map(|found| &record[found.start..][..found.length]);
    assert!(given == expected, "{what}: the cells differ");
    for _ in 1..TURNS {
        turns.turn(|| lookup(black_box(record), black_box(name)));
    }
    turns.best
}

fn number(refusal: Refusal) -> u32 {
    refusal.number
}
