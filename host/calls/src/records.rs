//! The records that the calls are held against the oracle on, and the names to be found in them.

use oracle::answer::{self, Answer, ENOUGH};
use oracle::generate::{self, DAMAGES};
use oracle::record::spell;

use crate::texts;

/// The record with this number, given by it and the seed alone: of the oracle's generator half (of
/// these half are sound), some with each damage in turn, some of texts that are read, and some of
/// more rows and characters than those have, of which half are damaged.
pub fn record(seed: u64, number: u64) -> Vec<u8> {
    let turn = number / 16;
    match number % 16 {
        0..8 => generate::record(seed, number),
        kind @ 8..12 => {
            let damage = (4 * turn + kind) as usize % DAMAGES.len();
            let (sound, damaged) = generate::damaged_record(seed, number, damage);
            damaged.unwrap_or(sound)
        }
        12..14 => spell(&generate::sound_pair(seed, number).0),
        14 => larger(seed, turn),
        _ => {
            let record = larger(seed, turn);
            let damage = turn as usize % DAMAGES.len();
            generate::with_damage(seed, number, &record, damage).unwrap_or(record)
        }
    }
}

/// The lookup with this number: a name and a record.
pub fn lookup(seed: u64, number: u64) -> (Vec<u8>, Vec<u8>) {
    let turn = number / 8;
    match number % 8 {
        0..6 => generate::lookup(seed, number),
        6 => {
            let record = larger(seed, turn);
            (generate::name_near(seed, number, &record), record)
        }
        _ => {
            let record = spell(&generate::sound_pair(seed, number).0);
            (generate::name_near(seed, number, &record), record)
        }
    }
}

/// The record of a text with some tens of taxa, characters or entries.
fn larger(seed: u64, turn: u64) -> Vec<u8> {
    let text = texts::larger(seed, turn);
    match answer::read(&text, ENOUGH, ENOUGH) {
        Answer::Bytes(record) => record,
        other => panic!("{other:?} for {}", text.escape_ascii()),
    }
}
