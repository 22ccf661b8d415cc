//! Random sound readings.

use super::rng::Rng;
use crate::data::{Cell, DataType, Matrix};
use crate::model::CharacterOrdering;
use crate::record::valid_symbol;

/// What a reading must have. Everything left open is chosen at random.
#[derive(Clone, Copy, Default)]
pub struct Wish {
    pub data_type: Option<DataType>,
    pub taxa: usize,
    pub characters: usize,
    /// Labels of characters and states, or none of them.
    pub labels: Option<bool>,
    /// Ordered characters, or none of them.
    pub ordered: Option<bool>,
    /// No state sets, gaps and missing cells.
    pub plain_cells: bool,
}

const WORDS: &[&str] = &[
    "a", "b", "C", "D", "t1", "t2", "Homo", "Pan", "x", "y", "Zea", "q.r", "a-b", "w", "k", "n",
];

const SPECIAL: &[&str] = &[
    "a b",
    "END",
    "matrix",
    "BEGIN",
    "ORD",
    "ALL",
    "1",
    "01",
    "2",
    "0",
    "?",
    "-",
    "a'b",
    "'",
    "it's",
    "\"q\"",
    "a\\b",
    "\\",
    "\\0",
    "\\1",
    "a\nb",
    "\n ",
    "\n\n ",
    " ",
    "  ",
    "a ",
    " a",
    "a;b",
    "[x]",
    "(",
    "]",
    "=",
    "a,b",
    "/",
    "+",
    "x+1",
    "é",
    "É",
    "ß",
    "SS",
    "\u{212a}",
    "K",
    "e\u{301}",
    "漢字",
    "𝄞",
    "\u{feff}x",
    "x\u{a0}y",
    "\u{a0} ",
    "\u{3000}z",
    "a\tb",
    "\u{85}c",
    "\u{2028}d",
    "\u{0}",
    "\u{7f}",
    "#NEXUS",
    "~",
    "|",
    "a:b",
    "{0}",
    "*",
    "<",
    "`",
    "\u{200b}",
    "\u{10ffff}",
];

/// A name that some token can have given.
pub fn name(rng: &mut Rng) -> String {
    match rng.below(100) {
        0..=54 => rng.pick(WORDS).to_string(),
        55..=79 => rng.pick(SPECIAL).to_string(),
        80..=89 => format!("{}{}", rng.pick(WORDS), rng.below(30)),
        90..=95 => format!("{} {}", rng.pick(WORDS), rng.pick(WORDS)),
        _ => format!("{}{}", rng.pick(SPECIAL), rng.pick(SPECIAL)),
    }
}

fn names(rng: &mut Rng, count: usize) -> Vec<String> {
    let mut names: Vec<String> = Vec::new();
    while names.len() < count {
        let mut new = name(rng);
        while names.iter().any(|name| name.eq_ignore_ascii_case(&new)) {
            new.push(char::from(b'a' + rng.below(26) as u8));
        }
        names.push(new);
    }
    names
}

/// The valid symbols, rising.
pub fn valid_symbols() -> Vec<char> {
    let bytes = (33..=126).filter(|&byte| valid_symbol(byte));
    bytes.map(char::from).collect()
}

fn symbols(rng: &mut Rng) -> Vec<char> {
    match rng.below(100) {
        0..=54 => vec!['0', '1'],
        55..=69 => "0123456789".chars().take(rng.between(2, 10)).collect(),
        70..=79 => rng
            .pick(&["ab", "aA", "xyz", "01a", "aAbB", "Zz9"])
            .chars()
            .collect(),
        80..=87 => rng
            .pick(&["01+", "+-", "0.", "!#", "?0", "$%&", "|_@", "01-"])
            .chars()
            .collect(),
        88..=97 => {
            let mut all = valid_symbols();
            rng.shuffle(&mut all);
            all.truncate(rng.between(2, 14));
            all
        }
        _ => {
            let mut all = valid_symbols();
            rng.shuffle(&mut all);
            all.truncate(rng.choose(&[70, 71, 72, 73]));
            all
        }
    }
}

fn state_set(rng: &mut Rng, symbols: usize) -> Vec<usize> {
    let mut states: Vec<usize> = (0..rng.between(1, 4)).map(|_| rng.below(symbols)).collect();
    states.sort_unstable();
    states.dedup();
    states
}

fn cell(rng: &mut Rng, symbols: usize, gap: bool, plain: bool) -> Cell {
    match if plain { 0 } else { rng.below(100) } {
        0..=64 => Cell::State(rng.below(symbols)),
        65..=75 => Cell::Uncertain(state_set(rng, symbols)),
        76..=84 => Cell::Polymorphic(state_set(rng, symbols)),
        85..=92 if gap => Cell::Gap,
        _ => Cell::Missing,
    }
}

fn size(rng: &mut Rng, least: usize) -> usize {
    let size = match rng.below(100) {
        0..=29 => 1,
        30..=59 => 2,
        60..=84 => 3,
        85..=96 => rng.between(4, 6),
        97..=98 => rng.between(7, 12),
        _ => rng.between(13, 24),
    };
    size.max(least)
}

fn state_labels(rng: &mut Rng, symbols: usize) -> Vec<String> {
    let most = if rng.percent(90) {
        symbols.min(3)
    } else {
        symbols.min(12)
    };
    let count = rng.between(0, most);
    (0..count).map(|_| name(rng)).collect()
}

/// A random reading; it is that of some text.
pub fn reading(rng: &mut Rng, wish: &Wish) -> Matrix {
    let dna = match wish.data_type {
        Some(data_type) => data_type == DataType::Dna,
        None => rng.percent(25),
    };
    let taxa = size(rng, wish.taxa);
    let characters = size(rng, wish.characters);
    let symbols = if dna {
        "ACGT".chars().collect()
    } else {
        symbols(rng)
    };
    let gap = symbols.len() < 73 && (dna || rng.percent(40));
    let labels = wish.labels.unwrap_or_else(|| rng.percent(20));
    let ordered = !dna && wish.ordered.unwrap_or_else(|| rng.percent(25));
    let rows = (0..taxa).map(|_| {
        let cells = (0..characters).map(|_| cell(rng, symbols.len(), gap, wish.plain_cells));
        cells.collect()
    });
    let rows = rows.collect();
    let mut reading = Matrix {
        data_type: if dna {
            DataType::Dna
        } else {
            DataType::Standard
        },
        blocks: Vec::new(),
        mixed: None,
        taxa: names(rng, taxa),
        symbols,
        rows,
        character_labels: vec![None; characters],
        state_labels: vec![Vec::new(); characters],
        ordering: vec![CharacterOrdering::Unordered; characters],
    };
    if labels {
        label(rng, &mut reading);
    }
    if ordered {
        let forced = rng.below(characters);
        for (character, order) in reading.ordering.iter_mut().enumerate() {
            if character == forced || rng.percent(50) {
                *order = CharacterOrdering::Ordered;
            }
        }
    }
    reading
}

fn label(rng: &mut Rng, reading: &mut Matrix) {
    let (all, share) = (rng.percent(30), rng.choose(&[20, 60, 90]));
    for character in 0..reading.character_count() {
        if all || rng.percent(share) {
            reading.character_labels[character] = Some(name(rng));
        }
        if rng.percent(share) {
            reading.state_labels[character] = state_labels(rng, reading.symbols.len());
        }
    }
}
