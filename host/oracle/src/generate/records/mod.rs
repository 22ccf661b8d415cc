//! Generated records: sound ones, and ones that break a single condition of refusal 31.

mod damages;
mod lines;

pub use damages::DAMAGES;

use super::reading::{Wish, reading, valid_symbols};
use super::rng::Rng;
use super::{render, text};
use crate::data::{DataType, Matrix};
use crate::record::spell;
use damages::Way;
use lines::{join, split};

/// A sound record: of a text that is read, or of any reading.
pub fn sound(rng: &mut Rng) -> Vec<u8> {
    match rng.below(10) {
        0..=3 => {
            let (_, draft) = text::sound(rng);
            let text = render::render(rng, &draft);
            let reading = crate::nexus::parse(&text).expect("a sound text is read");
            spell(&reading)
        }
        4..=8 => {
            let mut reading = reading(rng, &Wish::default());
            if rng.percent(10) {
                name_nearly_alike(rng, &mut reading);
            }
            spell(&reading)
        }
        _ => spell(&unusual(rng)),
    }
}

/// Letters that are alike only beyond ASCII, where case matters.
const NEARLY_ALIKE: &[[&str; 2]] = &[
    ["é", "É"],
    ["à", "À"],
    ["ß", "SS"],
    ["k", "\u{212a}"],
    ["ſ", "S"],
    ["ı", "I"],
    ["я", "Я"],
    ["σ", "ς"],
    ["\u{10428}", "\u{10400}"],
];

/// Names two taxa so that they differ by such letters alone, if no other taxon has the name.
fn name_nearly_alike(rng: &mut Rng, reading: &mut Matrix) {
    let [first, second, others @ ..] = reading.taxa.as_mut_slice() else {
        return;
    };
    let letters = rng.choose(NEARLY_ALIKE);
    let names = letters.map(|letter| format!("{first}{letter}"));
    let taken = |name: &String| others.iter().any(|other| other.eq_ignore_ascii_case(name));
    if !names.iter().any(taken) {
        [*first, *second] = names;
    }
}

/// A reading at a limit: 72 or 73 symbols, or labels everywhere.
fn unusual(rng: &mut Rng) -> Matrix {
    let wish = Wish {
        data_type: Some(DataType::Standard),
        labels: Some(rng.percent(50)),
        plain_cells: rng.percent(50),
        ..Wish::default()
    };
    let mut reading = reading(rng, &wish);
    let mut symbols = valid_symbols();
    rng.shuffle(&mut symbols);
    let has_gap = crate::record::has_gap(&reading);
    let most = if has_gap { 72 } else { rng.choose(&[72, 73]) };
    symbols.truncate(most.max(reading.symbols.len()));
    reading.symbols = symbols;
    reading
}

/// A sound record, and the same with this damage, if it can have it.
pub fn damaged(rng: &mut Rng, damage: usize) -> (Vec<u8>, Option<Vec<u8>>) {
    let record = sound(rng);
    let damaged = with_damage(rng, &record, damage);
    (record, damaged)
}

/// A record with this damage, if it can have it.
pub fn with_damage(rng: &mut Rng, record: &[u8], damage: usize) -> Option<Vec<u8>> {
    let (done, damaged) = match DAMAGES[damage].way {
        Way::Bytes(change) => {
            let mut damaged = record.to_vec();
            change(rng, &mut damaged);
            (true, damaged)
        }
        Way::Lines(change) => {
            let mut lines = split(record);
            let done = change(rng, &mut lines);
            (done, join(&lines))
        }
    };
    (done && damaged != record).then_some(damaged)
}

/// Damage at the record's bytes, which may or may not leave it sound.
fn damage_bytes(rng: &mut Rng, mut record: Vec<u8>) -> Vec<u8> {
    let at = rng.below(record.len());
    match rng.below(6) {
        0 => {
            record.pop();
        }
        1 => record.truncate(at),
        2 => {
            record.remove(at);
        }
        3 => record.insert(at, rng.choose(b"\n =0.um\\_x\xff\x00")),
        4 => record[at] = rng.choose(b"\n =01.upmg\\_x\xff"),
        _ => record.clear(),
    }
    record
}

pub fn record(rng: &mut Rng) -> Vec<u8> {
    match rng.below(100) {
        0..=49 => sound(rng),
        50..=61 => {
            let record = sound(rng);
            damage_bytes(rng, record)
        }
        _ => loop {
            let damage = rng.below(DAMAGES.len());
            if let (_, Some(record)) = damaged(rng, damage) {
                return record;
            }
        },
    }
}
