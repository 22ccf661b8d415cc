//! Short ways to ask for an answer.
#![allow(dead_code)]

use oracle::answer::{Answer, ENOUGH, Refusal, read};

pub fn answer(text: &str) -> Answer {
    read(text.as_bytes(), ENOUGH, ENOUGH)
}

/// The record of a text that is read.
#[track_caller]
pub fn record(text: &str) -> String {
    match answer(text) {
        Answer::Bytes(bytes) => String::from_utf8(bytes).expect("a record in UTF-8"),
        other => panic!("{text:?} is not read: {other:?}"),
    }
}

/// Number, line and column of a text that is refused.
#[track_caller]
pub fn refusal(text: &str) -> (u32, usize, usize) {
    match answer(text) {
        Answer::Refused(r) => (r.number, r.line, r.column),
        other => panic!("{text:?} is not refused: {other:?}"),
    }
}

pub fn refused(number: u32, line: usize, column: usize) -> Answer {
    Answer::Refused(Refusal {
        number,
        line,
        column,
    })
}

/// The values of the lines with this key.
pub fn values(record: &str, key: &str) -> Vec<String> {
    let lines = record.lines();
    let values = lines.filter_map(|line| line.strip_prefix(key)?.strip_prefix('='));
    values.map(str::to_string).collect()
}

/// A text with a data block of these commands.
pub fn data(commands: &str) -> String {
    format!("#NEXUS BEGIN DATA; {commands} END;")
}

/// The cells of the rows of a matrix with these dimensions and format.
#[track_caller]
pub fn cells(ntax: usize, nchar: usize, format: &str, rows: &str) -> Vec<String> {
    let text = data(&format!(
        "DIMENSIONS NTAX={ntax} NCHAR={nchar}; {format} MATRIX {rows};"
    ));
    values(&record(&text), "cells")
}

/// A text of seven lines: `before` is line 4, MATRIX line 5 and the rows begin in line 6.
pub fn doc(dimensions: &str, before: &str, rows: &str) -> String {
    format!("#NEXUS\nBEGIN DATA;\nDIMENSIONS {dimensions};\n{before}\nMATRIX\n{rows};\nEND;\n")
}

/// One taxon of five characters, and an ASSUMPTIONS block whose commands are in line 9.
pub fn typed(commands: &str) -> String {
    let matrix = doc("NTAX=1 NCHAR=5", "", "a 01010");
    format!("{matrix}BEGIN ASSUMPTIONS;\n{commands}\nEND;\n")
}

#[track_caller]
pub fn expect(text: &str, refused: (u32, usize, usize)) {
    assert_eq!(refusal(text), refused, "{text}");
}

#[track_caller]
pub fn row(format: &str, nchar: usize, cells: &str) -> String {
    let text = doc(
        &format!("NTAX=1 NCHAR={nchar}"),
        format,
        &format!("a {cells}"),
    );
    values(&record(&text), "cells").concat()
}

#[track_caller]
pub fn bad_row(format: &str, nchar: usize, cells: &str, refused: (u32, usize, usize)) {
    let text = doc(
        &format!("NTAX=1 NCHAR={nchar}"),
        format,
        &format!("a {cells}"),
    );
    expect(&text, refused);
}

#[track_caller]
pub fn name(spelled: &str) -> String {
    values(
        &record(&doc("NTAX=1 NCHAR=1", "", &format!("{spelled} 0"))),
        "name",
    )
    .concat()
}

/// The types of five characters as O and U.
#[track_caller]
pub fn types(commands: &str) -> String {
    let orders = values(&record(&typed(commands)), "order");
    orders
        .iter()
        .map(|order| if order == "ORD" { 'O' } else { 'U' })
        .collect()
}

/// FNV-1a, by which a test knows bytes again.
pub fn fnv(bytes: impl Iterator<Item = u8>) -> u64 {
    bytes.fold(0xcbf2_9ce4_8422_2325, |sum, byte| {
        (sum ^ u64::from(byte)).wrapping_mul(0x100_0000_01b3)
    })
}
