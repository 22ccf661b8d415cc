//! Tables: every cell stands in them, and they are no wider than they may be.

use cli::width;
use nexus::{Cell, DataType, Record, States};

use crate::run::{Folder, finished};

/// The sign of a cell, where `?` and `-` are no symbols of states.
fn sign(cell: &Cell<'_>, record: &Record) -> String {
    let symbols =
        |states: &States<'_>| -> String { states.clone().map(|state| state.symbol()).collect() };
    match cell {
        Cell::State(state) => state.symbol().to_string(),
        Cell::Missing => "?".to_string(),
        Cell::Gap => "-".to_string(),
        Cell::Polymorphic(states) => format!("({})", symbols(states)),
        Cell::Uncertain(states) => match (record.data_type(), symbols(states).as_str()) {
            (DataType::Dna, several) if several.len() > 1 => iupac(several).to_string(),
            (_, symbols) => format!("{{{symbols}}}"),
        },
    }
}

/// The code of the IUPAC for bases in the order of ACGT.
fn iupac(bases: &str) -> char {
    match bases {
        "AC" => 'M',
        "AG" => 'R',
        "AT" => 'W',
        "CG" => 'S',
        "CT" => 'Y',
        "GT" => 'K',
        "ACG" => 'V',
        "ACT" => 'H',
        "AGT" => 'D',
        "CGT" => 'B',
        "ACGT" => 'N',
        other => panic!("no code for {other}"),
    }
}

/// The records of generated texts that have no symbol `?` or `-`, with their texts.
fn records(count: usize) -> impl Iterator<Item = (String, Record)> {
    let texts = (0..).map(|number| oracle::generate::sound_pair(74, number).1);
    let read = texts.map(|text| {
        let record = nexus::read(text.as_bytes()).expect("a record");
        (text, record)
    });
    let plain = read.filter(|(_, record)| !record.symbols().as_str().contains(['?', '-']));
    plain.take(count)
}

/// The lines of the taxa: behind the name of the file, what it is, an empty line and the numbers.
fn rows(shown: &str, count: usize) -> Vec<&str> {
    shown.lines().skip(4).take(count).collect()
}

#[test]
#[cfg_attr(not(archive), ignore = "no archive; tools/test-calls makes it")]
fn every_cell_is_shown() {
    let folder = Folder::new("tables-cells");
    let mut dna = 0;
    for (text, record) in records(60) {
        let mut command = folder.nexus(["show", "-"]);
        let done = finished(&mut command, text.as_bytes());
        assert_eq!((done.status, done.err.as_str()), (0, ""));
        let rows = rows(&done.out, record.taxon_count());
        for (row, taxon) in rows.iter().zip(record.taxa()) {
            let cells: String = taxon.cells().map(|cell| sign(&cell, &record)).collect();
            let shown = row.replace(' ', "");
            assert!(shown.ends_with(&cells), "{cells}\n{}", done.out);
        }
        dna += usize::from(record.data_type() == DataType::Dna);
    }
    assert!((5..55).contains(&dna), "{dna} of DNA");
}

/// Whatever the columns, no row is wider, but for the one character that is always shown, and no
/// line of a character.
#[test]
#[cfg_attr(not(archive), ignore = "no archive; tools/test-calls makes it")]
fn tables_are_cut() {
    let folder = Folder::new("tables-cut");
    for (number, (text, record)) in records(40).enumerate() {
        let columns = [1, 2, 7, 30, 50, 80][number % 6];
        let mut command = folder.nexus(["show", "-"]);
        command.env("COLUMNS", columns.to_string());
        let done = finished(&mut command, text.as_bytes());
        assert_eq!((done.status, done.err.as_str()), (0, ""));
        let first = record.taxa().map(|taxon| {
            let cell = taxon.cells().next().expect("a cell");
            sign(&cell, &record).len()
        });
        let first = first.max().expect("a taxon");
        let most = columns.max((columns / 3).max(1) + 2 + first);
        for row in rows(&done.out, record.taxon_count()) {
            assert!(width::of(row) <= most, "{columns}\n{}", done.out);
        }
        let characters = done.out.split_once("\nCharacters\n");
        let (_, characters) = characters
            .or_else(|| done.out.split_once("\nC"))
            .expect("them");
        assert!(characters.lines().all(|line| width::of(line) <= columns));
    }
}
