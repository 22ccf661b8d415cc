//! The table of messages agrees with the sources and with docs/MESSAGES.md.

mod common;

use std::collections::HashMap;
use std::fs;
use std::path::{Path, PathBuf};

use common::fnv;
use oracle::messages::{NO_NAME, TABLE, markdown, matches, number, row_of};

const FILES: [&str; 4] = ["mod.rs", "lexer.rs", "matrix.rs", "assumptions.rs"];

fn crate_path(path: &str) -> PathBuf {
    Path::new(env!("CARGO_MANIFEST_DIR")).join(path)
}

fn source(file: &str) -> String {
    fs::read_to_string(crate_path("src/nexus").join(file)).expect("a source file")
}

/// What document 01 says of the numbers: "Refused while reading", and from "At the edges" and "Port
/// order" what speaks of them.
const DOCUMENT: &str = include_str!("document-01.txt");

/// FNV-1a of rove's files at the revision that NOTICE names, in the order of `FILES`.
const SUMS: [u64; 4] = [
    0xa14e_e9d9_93c2_ed8c,
    0xbbda_1de4_9f4f_efa5,
    0x2de0_70b8_e988_1436,
    0x8768_e682_176b_8027,
];

#[test]
fn the_four_files_are_copies() {
    for (file, expected) in FILES.into_iter().zip(SUMS) {
        let sum = fnv(source(file).bytes());
        assert_eq!(sum, expected, "{file} is not rove's: {sum:#x}");
    }
}

/// The call sites in a source: file and line, and the message.
fn call_sites(file: &str) -> Vec<(String, String)> {
    let text = source(file);
    let mut sites = Vec::new();
    let mut add = |at: usize, message: &str| {
        let line = text[..at].matches('\n').count() + 1;
        sites.push((format!("{file}:{line}"), message.to_string()));
    };
    for (at, call) in text.match_indices(".error(") {
        add(at, literal(&text[at + call.len()..]));
    }
    for (at, call) in text.match_indices("Error {") {
        let body = &text[at + call.len()..];
        let body = &body[..body.find('}').expect("a closing brace")];
        if let Some(message) = body.find("message: \"") {
            add(at, literal(&body[message..]));
        }
    }
    for (at, _) in text.match_indices(".label()") {
        add(at, NO_NAME);
    }
    sites
}

/// The first string literal of a source text.
fn literal(text: &str) -> &str {
    let text = &text[text.find('"').expect("a string") + 1..];
    let text = &text[..text.find('"').expect("its end")];
    assert!(!text.contains('\\'), "an escape in {text}");
    text
}

#[test]
fn the_table_has_each_call_site_and_nothing_else() {
    let mut found: Vec<(String, String)> = FILES.iter().flat_map(|f| call_sites(f)).collect();
    let rows = TABLE.iter();
    let mut table: Vec<(String, String)> = rows
        .map(|row| (row.site.to_string(), row.message.to_string()))
        .collect();
    found.sort();
    table.sort();
    assert_eq!(found, table);
    assert_eq!(table.len(), 103);
}

#[test]
fn the_document_has_the_table() {
    let path = crate_path("../../docs/MESSAGES.md");
    let document = fs::read_to_string(path).expect("docs/MESSAGES.md");
    let lines = document.lines().filter(|line| line.starts_with('|'));
    let table: String = lines.map(|line| format!("{line}\n")).collect();
    assert_eq!(table, markdown());
}

#[test]
fn one_message_has_one_number() {
    let mut numbers = HashMap::new();
    for row in TABLE {
        let earlier = numbers.insert(row.message, row.number);
        assert!(earlier.is_none_or(|n| n == row.number), "{}", row.message);
    }
    let mut known: Vec<u32> = numbers.into_values().collect();
    known.sort_unstable();
    known.dedup();
    assert_eq!(known, (4..=29).collect::<Vec<u32>>());
}

/// The message with its holes filled: names by `name`, symbols by a quote, all else by a number.
fn filled(pattern: &str, name: &str) -> String {
    pattern
        .replace("{symbol:?}", &format!("{:?}", '\''))
        .replace("{name:?}", &format!("{name:?}"))
        .replace("{:?}", &format!("{name:?}"))
        .replace("{nchar}", "3")
        .replace("{ntax}", "4")
        .replace("{}", "17")
}

#[test]
fn a_message_matches_its_own_pattern_alone() {
    for row in TABLE {
        let message = filled(row.message, "a \"b\" \\ 'c'\n\u{301}");
        for other in TABLE {
            let same = other.message == row.message;
            assert_eq!(
                matches(other.message, &message),
                same,
                "{message:?} {other:?}"
            );
        }
    }
}

#[test]
fn no_name_makes_another_message() {
    for other in TABLE {
        let name = format!(
            "x\", character 1: {}",
            filled(other.message, "y\" exceeds NCHAR=3")
        );
        for row in TABLE {
            let message = filled(row.message, &name);
            assert_eq!(number(&message), Some(row.number), "{message}");
            let prefixed = format!("taxon {name:?}, character 12: {message}");
            assert_eq!(number(&prefixed), Some(row.number), "{prefixed}");
        }
    }
}

#[test]
fn other_messages_have_no_row() {
    for message in [
        "",
        "expected",
        "expected #NEXUS ",
        "duplicate taxon a",
        "duplicate taxon \"a",
        "duplicate taxon \"a\"b",
        "row for \"a\" exceeds NCHAR=",
        "row for \"a\" exceeds NCHAR=x",
        "taxon \"a\", character : empty state set",
        "taxon a, character 1: empty state set",
        "unsupported block x",
    ] {
        assert!(row_of(message).is_none(), "{message:?}");
    }
}

#[test]
fn the_words_are_those_of_document_01() {
    for row in TABLE {
        for words in row.words.split("...").map(str::trim) {
            assert!(DOCUMENT.contains(words), "{}: {words:?}", row.site);
        }
    }
}
