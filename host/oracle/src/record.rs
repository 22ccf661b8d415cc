//! The record of a reading, and the reading of a record. `unspell` takes exactly the records
//! that some text has; for all other bytes refusal 31 stands.

use std::collections::HashSet;

use crate::data::{Cell, DataType, Matrix};
use crate::model::CharacterOrdering;

/// The highest count of taxa and of characters in a record.
pub const COUNT_LIMIT: usize = 1_048_576;

/// The number of valid symbols: ASCII 33 to 126 without the marks that NEXUS reserves.
const VALID_SYMBOLS: usize = 74;

pub fn valid_symbol(byte: u8) -> bool {
    (33..=126).contains(&byte) && !b"()[]{}/\\,;:=*'\"`<>~^".contains(&byte)
}

// Spelling.

/// The record of a reading.
pub fn spell(reading: &Matrix) -> Vec<u8> {
    let mut out = String::new();
    line(&mut out, "datatype", data_type(reading));
    line(&mut out, "taxa", &reading.taxa().len().to_string());
    line(
        &mut out,
        "characters",
        &reading.character_count().to_string(),
    );
    line(
        &mut out,
        "symbols",
        &reading.symbols().iter().collect::<String>(),
    );
    for (name, row) in reading.taxa().iter().zip(reading.rows()) {
        line(&mut out, "name", &escape(name));
        let cells: Vec<String> = row.iter().map(cell).collect();
        line(&mut out, "cells", &cells.join(" "));
    }
    for character in 0..reading.character_count() {
        spell_character(&mut out, reading, character);
    }
    out.into_bytes()
}

fn spell_character(out: &mut String, reading: &Matrix, character: usize) {
    let label = reading.character_labels()[character].as_deref();
    let states = &reading.state_labels()[character];
    line(out, "character", &(character + 1).to_string());
    line(out, "label", &escape(label.unwrap_or("")));
    line(out, "order", order(reading.ordering()[character]));
    line(out, "states", &states.len().to_string());
    for state in states {
        line(out, "state", &escape(state));
    }
}

fn line(out: &mut String, key: &str, value: &str) {
    out.push_str(key);
    out.push('=');
    out.push_str(value);
    out.push('\n');
}

fn data_type(reading: &Matrix) -> &'static str {
    match reading.data_type() {
        DataType::Standard => "STANDARD",
        DataType::Dna => "DNA",
    }
}

pub(crate) fn order(ordering: CharacterOrdering) -> &'static str {
    match ordering {
        CharacterOrdering::Ordered => "ORD",
        CharacterOrdering::Unordered => "UNORD",
    }
}

/// A name or label with LF as `\0` and a backslash as `\1`.
pub fn escape(name: &str) -> String {
    name.replace('\\', "\\1").replace('\n', "\\0")
}

fn cell(cell: &Cell) -> String {
    match cell {
        Cell::State(state) => state.to_string(),
        Cell::Uncertain(states) => format!("u{}", joined(states)),
        Cell::Polymorphic(states) => format!("p{}", joined(states)),
        Cell::Missing => "m".into(),
        Cell::Gap => "g".into(),
    }
}

fn joined(states: &[usize]) -> String {
    let states: Vec<String> = states.iter().map(usize::to_string).collect();
    states.join(".")
}

// Reading back.

/// The reading that a record spells; none if the bytes are no record of any text.
pub fn unspell(record: &[u8]) -> Option<Matrix> {
    let mut lines = Lines { rest: record };
    let data_type = match lines.value("datatype")? {
        b"STANDARD" => DataType::Standard,
        b"DNA" => DataType::Dna,
        _ => return None,
    };
    let taxa = count(lines.value("taxa")?)?;
    let characters = count(lines.value("characters")?)?;
    let symbols = symbols(lines.value("symbols")?, data_type)?;
    let mut reading = Matrix {
        data_type,
        blocks: Vec::new(),
        mixed: None,
        taxa: Vec::new(),
        symbols,
        rows: Vec::new(),
        character_labels: Vec::new(),
        state_labels: Vec::new(),
        ordering: Vec::new(),
    };
    for _ in 0..taxa {
        unspell_taxon(&mut lines, &mut reading, characters)?;
    }
    for character in 1..=characters {
        unspell_character(&mut lines, &mut reading, character)?;
    }
    (lines.rest.is_empty() && names_differ(&reading) && gap_possible(&reading)).then_some(reading)
}

struct Lines<'a> {
    rest: &'a [u8],
}

impl<'a> Lines<'a> {
    /// The value of the next line, which must have this key and end with LF.
    fn value(&mut self, key: &str) -> Option<&'a [u8]> {
        let end = self.rest.iter().position(|&byte| byte == b'\n')?;
        let line = &self.rest[..end];
        self.rest = &self.rest[end + 1..];
        line.strip_prefix(key.as_bytes())?.strip_prefix(b"=")
    }
}

fn unspell_taxon(lines: &mut Lines<'_>, reading: &mut Matrix, characters: usize) -> Option<()> {
    reading.taxa.push(name(lines.value("name")?)?);
    let cells = lines
        .value("cells")?
        .split(|&byte| byte == b' ')
        .map(|bytes| unspell_cell(bytes, reading.symbols.len()))
        .collect::<Option<Vec<_>>>()?;
    (cells.len() == characters).then(|| reading.rows.push(cells))
}

fn unspell_character(lines: &mut Lines<'_>, reading: &mut Matrix, character: usize) -> Option<()> {
    if number(lines.value("character")?)? != character {
        return None;
    }
    let label = lines.value("label")?;
    reading.character_labels.push(match label {
        b"" => None,
        _ => Some(name(label)?),
    });
    reading.ordering.push(match lines.value("order")? {
        b"ORD" if reading.data_type == DataType::Standard => CharacterOrdering::Ordered,
        b"UNORD" => CharacterOrdering::Unordered,
        _ => return None,
    });
    let states = number(lines.value("states")?)?;
    if states > reading.symbols.len() {
        return None;
    }
    let labels = (0..states).map(|_| name(lines.value("state")?));
    reading.state_labels.push(labels.collect::<Option<_>>()?);
    Some(())
}

/// A number in decimal digits, without sign, blank or leading zero. Numbers of more than nine
/// digits are above every count and index, so they are none.
fn number(bytes: &[u8]) -> Option<usize> {
    let plain = matches!(bytes, [b'0'] | [b'1'..=b'9', ..]);
    if !plain || bytes.len() > 9 || !bytes.iter().all(u8::is_ascii_digit) {
        return None;
    }
    Some(
        bytes
            .iter()
            .fold(0, |n, &digit| n * 10 + usize::from(digit - b'0')),
    )
}

fn count(bytes: &[u8]) -> Option<usize> {
    number(bytes).filter(|n| (1..=COUNT_LIMIT).contains(n))
}

fn symbols(bytes: &[u8], data_type: DataType) -> Option<Vec<char>> {
    let distinct: HashSet<&u8> = bytes.iter().collect();
    let sound = match data_type {
        DataType::Dna => bytes == b"ACGT",
        // The missing symbol is valid and unlike all states.
        DataType::Standard => {
            (2..VALID_SYMBOLS).contains(&bytes.len())
                && distinct.len() == bytes.len()
                && bytes.iter().all(|&byte| valid_symbol(byte))
        }
    };
    sound.then(|| bytes.iter().map(|&byte| char::from(byte)).collect())
}

/// A name or label that `Token::label` can have given: not empty, without `_` and CR; blank
/// characters alone only if one of them is U+0020, which came from a `_`.
fn name(value: &[u8]) -> Option<String> {
    let name = unescape(value)?;
    let spelled = name.contains(' ') || !name.trim().is_empty();
    (spelled && !name.contains(['_', '\r'])).then_some(name)
}

/// A name with `\0` and `\1` read back.
pub fn unescape(value: &[u8]) -> Option<String> {
    let mut bytes = Vec::with_capacity(value.len());
    let mut rest = value.iter();
    while let Some(&byte) = rest.next() {
        bytes.push(match byte {
            b'\\' => match rest.next()? {
                b'0' => b'\n',
                b'1' => b'\\',
                _ => return None,
            },
            _ => byte,
        });
    }
    String::from_utf8(bytes).ok()
}

fn unspell_cell(bytes: &[u8], symbols: usize) -> Option<Cell> {
    Some(match bytes {
        b"m" => Cell::Missing,
        b"g" => Cell::Gap,
        [b'u', states @ ..] => Cell::Uncertain(state_set(states, symbols)?),
        [b'p', states @ ..] => Cell::Polymorphic(state_set(states, symbols)?),
        _ => Cell::State(state(bytes, symbols)?),
    })
}

fn state(bytes: &[u8], symbols: usize) -> Option<usize> {
    number(bytes).filter(|&state| state < symbols)
}

fn state_set(bytes: &[u8], symbols: usize) -> Option<Vec<usize>> {
    let states = bytes
        .split(|&byte| byte == b'.')
        .map(|bytes| state(bytes, symbols))
        .collect::<Option<Vec<_>>>()?;
    states
        .windows(2)
        .all(|pair| pair[0] < pair[1])
        .then_some(states)
}

fn names_differ(reading: &Matrix) -> bool {
    let mut seen = HashSet::new();
    let mut names = reading.taxa.iter();
    names.all(|name| seen.insert(name.to_ascii_lowercase()))
}

/// A gap cell in STANDARD data needs a symbol beside the states and the missing symbol.
fn gap_possible(reading: &Matrix) -> bool {
    reading.data_type == DataType::Dna
        || reading.symbols.len() < VALID_SYMBOLS - 1
        || !has_gap(reading)
}

pub(crate) fn has_gap(reading: &Matrix) -> bool {
    reading.rows().iter().flatten().any(|c| *c == Cell::Gap)
}
