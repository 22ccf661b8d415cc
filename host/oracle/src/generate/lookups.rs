//! Generated lookups: a name and a record.

use super::draft::changed_case;
use super::records;
use super::rng::Rng;
use crate::record::{escape, unspell};

pub fn lookup(rng: &mut Rng) -> (Vec<u8>, Vec<u8>) {
    let record = records::sound(rng);
    let name = name_near(rng, &record);
    if rng.percent(80) {
        return (name, record);
    }
    loop {
        let damage = rng.below(records::DAMAGES.len());
        if let (_, Some(record)) = records::damaged(rng, damage) {
            return (name, record);
        }
    }
}

/// A name near one of a sound record's taxa.
pub fn name_near(rng: &mut Rng, record: &[u8]) -> Vec<u8> {
    let taxa = unspell(record).expect("a sound record").taxa;
    let own = taxa[rng.below(taxa.len())].clone();
    name(rng, own)
}

/// A name near a taxon's own.
fn name(rng: &mut Rng, own: String) -> Vec<u8> {
    let text = match rng.below(100) {
        0..=29 => own,
        30..=54 => changed_case(rng, &own),
        55..=59 => own.to_uppercase(),
        60..=64 => own.to_lowercase(),
        65..=69 => own.replace(' ', "_"),
        70..=72 => escape(&own),
        73..=76 => own.chars().skip(1).collect(),
        77..=80 => own.chars().take(1).collect(),
        81..=83 => format!("{own} "),
        84..=85 => String::new(),
        86..=89 => format!("'{own}'"),
        90..=94 => super::reading::name(rng),
        _ => {
            let mut bytes = own.into_bytes();
            let at = rng.below(bytes.len() + 1);
            bytes.insert(at, rng.choose(b"\xff\x80\xc3\x00\n"));
            return bytes;
        }
    };
    text.into_bytes()
}
