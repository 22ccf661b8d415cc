//! The written form of a reading.

use crate::data::{Cell, DataType, Matrix};
use crate::model::CharacterOrdering;
use crate::record::{has_gap, order, valid_symbol};

/// The symbols that stand for the states, missing and gap in the written rows.
struct Symbols<'a> {
    states: &'a [char],
    missing: char,
    gap: char,
}

/// The written form of a reading that `record::unspell` gave, or of a text's.
pub fn form(reading: &Matrix) -> Vec<u8> {
    let symbols = symbols_of(reading);
    let mut out = String::from("#NEXUS\nBEGIN DATA;\n");
    let (ntax, nchar) = (reading.taxa().len(), reading.character_count());
    out.push_str(&format!("DIMENSIONS NTAX={ntax} NCHAR={nchar};\n"));
    out.push_str(&format_command(reading, &symbols));
    out.push_str(&label_command(reading));
    out.push_str("MATRIX\n");
    for (name, row) in reading.taxa().iter().zip(reading.rows()) {
        out.push_str(&quoted(name));
        out.push(' ');
        row.iter()
            .for_each(|cell| push_cell(&mut out, cell, &symbols));
        out.push('\n');
    }
    out.push_str(";\nEND;\n");
    out.push_str(&assumptions(reading));
    out.into_bytes()
}

fn symbols_of(reading: &Matrix) -> Symbols<'_> {
    let states = reading.symbols();
    if reading.data_type() == DataType::Dna {
        return Symbols {
            states,
            missing: '?',
            gap: '-',
        };
    }
    let mut free = (33..=126)
        .filter(|&byte| valid_symbol(byte))
        .map(char::from)
        .filter(|symbol| !states.contains(symbol));
    let missing = free.next().expect("at most 73 of 74 symbols are states");
    // With 73 states nothing is left for a gap, and no cell is one.
    let gap = free.next().unwrap_or(missing);
    Symbols {
        states,
        missing,
        gap,
    }
}

fn format_command(reading: &Matrix, symbols: &Symbols<'_>) -> String {
    if reading.data_type() == DataType::Dna {
        return "FORMAT DATATYPE=DNA MISSING=? GAP=-;\n".into();
    }
    let gap = match has_gap(reading) {
        true => format!(" GAP={}", symbols.gap),
        false => String::new(),
    };
    format!(
        "FORMAT DATATYPE=STANDARD RESPECTCASE MISSING={}{gap} SYMBOLS=\"{}\";\n",
        symbols.missing,
        symbols.states.iter().collect::<String>()
    )
}

/// The line of CHARSTATELABELS; empty if no character has a label or a state label.
fn label_command(reading: &Matrix) -> String {
    let labels = reading.character_labels().iter();
    let entries: Vec<String> = labels
        .zip(reading.state_labels())
        .enumerate()
        .filter(|(_, (label, states))| label.is_some() || !states.is_empty())
        .map(|(character, (label, states))| entry(character + 1, label.as_deref(), states))
        .collect();
    if entries.is_empty() {
        return String::new();
    }
    format!("CHARSTATELABELS{};\n", entries.join(","))
}

fn entry(number: usize, label: Option<&str>, states: &[String]) -> String {
    let mut out = format!(" {number}");
    if let Some(label) = label {
        out.push(' ');
        out.push_str(&quoted(label));
    }
    if !states.is_empty() {
        out.push_str(" /");
    }
    for state in states {
        out.push(' ');
        out.push_str(&quoted(state));
    }
    out
}

/// A name in single quotes. No name of a reading holds a CR, since the lexer makes each newline
/// inside quotes an LF; so there is no CR before an LF to be doubled.
fn quoted(name: &str) -> String {
    format!("'{}'", name.replace('\'', "''").replace(' ', "_"))
}

fn push_cell(out: &mut String, cell: &Cell, symbols: &Symbols<'_>) {
    match cell {
        Cell::State(state) => out.push(symbols.states[*state]),
        Cell::Uncertain(states) => push_set(out, '{', states, '}', symbols),
        Cell::Polymorphic(states) => push_set(out, '(', states, ')', symbols),
        Cell::Missing => out.push(symbols.missing),
        Cell::Gap => out.push(symbols.gap),
    }
}

fn push_set(out: &mut String, open: char, states: &[usize], close: char, symbols: &Symbols<'_>) {
    out.push(open);
    out.extend(states.iter().map(|&state| symbols.states[state]));
    out.push(close);
}

/// The ASSUMPTIONS block; empty if no character is ordered.
fn assumptions(reading: &Matrix) -> String {
    let types = reading.ordering();
    if !types.contains(&CharacterOrdering::Ordered) {
        return String::new();
    }
    let types: String = types.iter().map(|&t| format!(" {}", order(t))).collect();
    format!("BEGIN ASSUMPTIONS;\nTYPESET * w (VECTOR) ={types};\nEND;\n")
}
