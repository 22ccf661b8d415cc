//! Generated questions: texts, records and lookups. A question is given by its seed and its
//! number alone.

mod alphabet;
mod damage;
mod draft;
mod faults;
mod labels;
mod lookups;
mod mixes;
mod reading;
mod records;
mod render;
mod rng;
mod text;
mod types;

pub use records::DAMAGES;

use crate::data::Matrix;
use draft::Draft;
use rng::Rng;

/// No text is longer than this.
const LONGEST: usize = 1_000;

/// The text with this number.
pub fn text(seed: u64, number: u64) -> Vec<u8> {
    let mut rng = Rng::new(seed, number);
    loop {
        let text = any_text(&mut rng);
        if text.len() <= LONGEST {
            return text;
        }
    }
}

fn any_text(rng: &mut Rng) -> Vec<u8> {
    match rng.below(100) {
        0..=27 => sound_text(rng).1.into_bytes(),
        28..=57 => drafted(rng, faults::faulty),
        58..=61 => damaged(rng, faults::faulty),
        62..=77 => drafted(rng, mixes::mixed),
        78..=87 => damaged(rng, |rng| text::sound(rng).1),
        88..=96 => {
            let (_, text) = sound_text(rng);
            damage::damage_bytes(rng, text)
        }
        _ => damage::soup(rng),
    }
}

fn drafted(rng: &mut Rng, draft: fn(&mut Rng) -> Draft) -> Vec<u8> {
    let draft = draft(rng);
    render::render(rng, &draft).into_bytes()
}

fn damaged(rng: &mut Rng, draft: fn(&mut Rng) -> Draft) -> Vec<u8> {
    let mut draft = draft(rng);
    damage::damage_draft(rng, &mut draft);
    render::render(rng, &draft).into_bytes()
}

/// The call sites that have a fault of their own.
pub fn fault_sites() -> Vec<&'static str> {
    faults::sites()
}

/// The text with this number that has the fault of a call site, by its number in `fault_sites`.
pub fn faulty_text(seed: u64, number: u64, site: usize) -> String {
    let mut rng = Rng::new(seed, number);
    let draft = faults::faulty_at(&mut rng, site);
    render::render(&mut rng, &draft)
}

/// A text's bytes with a few deleted, inserted, swapped or cut off, by this number.
pub fn damaged_text(seed: u64, number: u64, text: String) -> Vec<u8> {
    damage::damage_bytes(&mut Rng::new(seed, number), text)
}

/// A text that is read, and its reading.
pub fn sound_pair(seed: u64, number: u64) -> (Matrix, String) {
    sound_text(&mut Rng::new(seed, number))
}

fn sound_text(rng: &mut Rng) -> (Matrix, String) {
    let (reading, draft) = text::sound(rng);
    let text = render::render(rng, &draft);
    (reading, text)
}

/// The record with this number. About half of them are sound.
pub fn record(seed: u64, number: u64) -> Vec<u8> {
    records::record(&mut Rng::new(seed, number))
}

/// A sound record, and the same with the damage of this number in `DAMAGES`, if it can have it.
pub fn damaged_record(seed: u64, number: u64, damage: usize) -> (Vec<u8>, Option<Vec<u8>>) {
    records::damaged(&mut Rng::new(seed, number), damage)
}

/// A sound record with the damage of this number in `DAMAGES`, if it can have it.
pub fn with_damage(seed: u64, number: u64, record: &[u8], damage: usize) -> Option<Vec<u8>> {
    records::with_damage(&mut Rng::new(seed, number), record, damage)
}

/// The lookup with this number: a name and a record.
pub fn lookup(seed: u64, number: u64) -> (Vec<u8>, Vec<u8>) {
    lookups::lookup(&mut Rng::new(seed, number))
}

/// A name that a taxon of a sound record has, or one near it.
pub fn name_near(seed: u64, number: u64, record: &[u8]) -> Vec<u8> {
    lookups::name_near(&mut Rng::new(seed, number), record)
}
