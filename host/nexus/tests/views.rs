//! Views of records, held against the readings of the oracle.

mod common;

use common::hold;
use inputs::example::RECORD;
use nexus::{Record, Refusal, TaxonNumber, View, read};
use oracle::data::Matrix;
use oracle::generate;
use oracle::record::unspell;

/// The views of these bytes, which are a record, held against the oracle's reading of them.
#[track_caller]
fn hold_record(bytes: &[u8]) -> Matrix {
    let reading = unspell(bytes).unwrap_or_else(|| panic!("no record: {}", bytes.escape_ascii()));
    let view = View::of(bytes).expect("a view");
    assert_eq!(view.as_bytes(), bytes);
    hold(view, &reading);
    let record = Record::from_bytes(bytes.to_vec()).expect("a record");
    assert_eq!(record.view(), view);
    reading
}

/// Texts that are read, with the readings that they were made of.
#[test]
#[cfg_attr(not(archive), ignore = "no archive; tools/test-calls makes it")]
fn generated_texts() {
    for number in 0..3_000 {
        let (reading, text) = generate::sound_pair(14, number);
        let record = read(text.as_bytes()).unwrap_or_else(|refusal| panic!("{refusal}: {text}"));
        hold(record.view(), &reading);
    }
}

/// Records, of which about half are none.
#[test]
#[cfg_attr(not(archive), ignore = "no archive; tools/test-calls makes it")]
fn generated_records() {
    let mut held = 0;
    for number in 0..6_000 {
        let bytes = generate::record(14, number);
        if unspell(&bytes).is_some() {
            hold_record(&bytes);
            held += 1;
        } else {
            let refused = View::of(&bytes).expect_err("no record").number;
            assert_eq!(refused, Refusal::NO_RECORD);
        }
    }
    assert!(held > 2_500, "{held} of 6,000 are records");
}

/// A record with these first lines, this one row, and characters without labels.
fn one_row(data_type: &str, symbols: &str, cells: &str) -> String {
    let count = cells.split(' ').count();
    let characters: String = (1..=count)
        .map(|number| format!("character={number}\nlabel=\norder=UNORD\nstates=0\n"))
        .collect();
    format!(
        "datatype={data_type}\ntaxa=1\ncharacters={count}\nsymbols={symbols}\nname=a\n\
        cells={cells}\n{characters}"
    )
}

#[test]
#[cfg_attr(not(archive), ignore = "no archive; tools/test-calls makes it")]
fn all_kinds_of_cells() {
    for (data_type, symbols, cells) in [
        ("STANDARD", "01", "0"),
        ("STANDARD", "01", "g"),
        ("STANDARD", "01", "0 1 u0 u1 u0.1 p0 p1 p0.1 m g"),
        ("STANDARD", "aA", "0 1 m u0.1 1 g"),
        (
            "STANDARD",
            "0123456789AB",
            "11 u9.10.11 p0.11 10 9 u10 p0.1.2.3.4.5.6.7.8.9.10.11",
        ),
        ("DNA", "ACGT", "0 1 2 3 u0.1.2.3 p0.1.2.3 u0 p3 m g"),
    ] {
        hold_record(one_row(data_type, symbols, cells).as_bytes());
    }
    // As many symbols as there can be, and all of them in a set.
    let valid = (33..=126).filter(|&byte| oracle::record::valid_symbol(byte));
    let symbols: String = valid.skip(1).map(char::from).collect();
    assert_eq!(symbols.len(), 73);
    let all: Vec<String> = (0..73).map(|number: u32| number.to_string()).collect();
    let cells = format!(
        "{} u{} p{} m 72",
        all.join(" "),
        all.join("."),
        all.join(".")
    );
    hold_record(one_row("STANDARD", &symbols, &cells).as_bytes());
}

/// Names and labels that are escaped, quoted, beyond ASCII, or look like lines of a record.
const NAMES: &[&str] = &[
    " ",
    "a b",
    "\\0",
    "\\1",
    "\\1\\1",
    "\\1\\0\\1 x",
    "\\0\\0 ",
    "\\10",
    "a\\0b\\1c",
    "it's",
    "'",
    "\"q\"",
    "cells=0",
    "m",
    "name=a",
    "é",
    "漢字",
    "𝄞\\0𝄞",
    "e\u{301}\\1",
    "\u{0}",
    "\t\u{a0} ",
    "\u{10ffff}",
];

#[test]
#[cfg_attr(not(archive), ignore = "no archive; tools/test-calls makes it")]
fn names_and_labels() {
    let mut held = 0;
    for name in NAMES {
        for line in ["name=C\n", "label=\n", "states=0\n"] {
            let lines = match line {
                "states=0\n" => format!("states=2\nstate={name}\nstate=x\n"),
                "label=\n" => format!("label={name}\n"),
                _ => format!("name={name}\n"),
            };
            let record = RECORD.replacen(line, &lines, 1);
            if unspell(record.as_bytes()).is_some() {
                hold_record(record.as_bytes());
                held += 1;
            }
        }
    }
    assert!(held >= 3 * NAMES.len() - 5, "{held} are records");
}

#[test]
#[cfg_attr(not(archive), ignore = "no archive; tools/test-calls makes it")]
fn types() {
    for types in ["000", "001", "010", "100", "111"] {
        let mut record = RECORD.to_string();
        for (index, order) in types.bytes().enumerate() {
            let from = record
                .find(&format!("character={}\n", index + 1))
                .expect("a character");
            let order = if order == b'1' {
                "order=ORD"
            } else {
                "order=UNORD"
            };
            let changed = record[from..].replacen("order=UNORD", order, 1);
            record.replace_range(from.., &changed);
        }
        let reading = hold_record(record.as_bytes());
        let ordered = reading
            .ordering()
            .iter()
            .filter(|order| **order != Default::default());
        assert_eq!(ordered.count(), types.matches('1').count());
    }
}

/// Many taxa, many characters, and texts of a megabyte.
#[test]
#[cfg_attr(not(archive), ignore = "no archive; tools/test-calls makes it")]
fn long_records() {
    for (text, taxa, characters) in [
        (inputs::pages(50, 15_000, 60), 50, 15_000),
        (inputs::standard(100, 5_500, true), 100, 5_500),
        (inputs::labels(13_000), 1, 13_000),
        (inputs::vector(200_000), 1, 200_000),
    ] {
        let record = read(&text).expect("a record");
        assert_eq!(record.taxon_count(), taxa);
        assert_eq!(record.character_count(), characters);
        let reading = unspell(record.as_bytes()).expect("a reading");
        hold(record.view(), &reading);
    }
    let many = Record::from_bytes(inputs::record(100_000, 1)).expect("a record");
    let last = TaxonNumber::new(100_000).and_then(|number| many.taxon(number));
    assert!(last.is_some_and(|taxon| taxon.name() == format!("{:x}", 99_999).as_str()));
}

#[test]
#[cfg_attr(not(archive), ignore = "no archive; tools/test-calls makes it")]
fn views_are_shown() {
    let record = Record::from_bytes(RECORD.replace("=C", "=C\\0\\1").into()).expect("a record");
    let second = record.taxa().last().expect("a taxon");
    let zero = "State { number: 0, symbol: '0' }";
    let one = "State { number: 1, symbol: '1' }";
    assert_eq!(
        format!("{second:?}"),
        format!(
            "Taxon {{ number: TaxonNumber(2), name: \"C\\n\\\\\", \
            cells: [State({one}), Polymorphic([{one}]), State({zero})] }}"
        )
    );
    let shown = format!("{:?}", record.view());
    assert!(shown.contains("data_type: Standard, symbols: \"01\", taxa: [Taxon"));
    assert!(shown.contains("label: None, ordering: Unordered, state_labels: []"));
}
