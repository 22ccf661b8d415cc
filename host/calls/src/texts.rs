//! The texts that the calls are held against the oracle on.

use oracle::generate::{self, fault_sites};

/// The text with this number, given by it and the seed alone: of the oracle's generator most (a
/// third of them are read, the others have one fault or are damaged), some that are read in full,
/// some with the fault of one message, and some of more rows and pages than those have.
pub fn text(seed: u64, number: u64) -> Vec<u8> {
    let turn = number / 16;
    match number % 16 {
        0..10 => generate::text(seed, number),
        10..13 => generate::sound_pair(seed, number).1.into_bytes(),
        13..15 => {
            let site = turn as usize % fault_sites().len();
            generate::faulty_text(seed, number, site).into_bytes()
        }
        _ => larger_or_damaged(seed, turn),
    }
}

/// A text with some tens of taxa, characters or entries; half of them are damaged.
fn larger_or_damaged(seed: u64, turn: u64) -> Vec<u8> {
    let text = larger(seed, turn);
    if turn.is_multiple_of(2) {
        return text;
    }
    let text = String::from_utf8(text).expect("long inputs are ASCII");
    generate::damaged_text(seed, turn, text)
}

/// A text with some tens of taxa, characters or entries.
pub fn larger(seed: u64, turn: u64) -> Vec<u8> {
    let mixed = (seed ^ turn).wrapping_mul(0x9e37_79b9_7f4a_7c15);
    let part = |from: u32, most: usize| 1 + (mixed >> from) as usize % most;
    let (taxa, characters) = (part(10, 30), part(20, 40));
    match mixed >> 60 {
        0..3 => inputs::pages(taxa, characters, part(30, 20)),
        3..5 => inputs::rows(taxa, characters),
        5 => inputs::standard(taxa, characters, false),
        6..9 => inputs::standard(taxa, characters, true),
        9..12 => inputs::names(part(30, 120), part(40, 2) == 1),
        12..14 => inputs::labels(characters),
        14 => inputs::listed(characters),
        _ => inputs::vector(characters),
    }
}
