//! docs/DECISIONS.md is a list of short decisions, and what other documents cite of it is there.

use std::fs;
use std::path::{Path, PathBuf};

fn repository(path: &str) -> PathBuf {
    Path::new(env!("CARGO_MANIFEST_DIR"))
        .join("../..")
        .join(path)
}

fn document(path: &str) -> String {
    fs::read_to_string(repository(path)).expect("a document")
}

/// A decision has fewer characters.
const MOST: usize = 500;

/// The paragraphs, items of lists and rows of tables of a document. An item goes on up to the next one or an empty line.
fn parts(document: &str) -> Vec<String> {
    let mut parts = vec![String::new()];
    for line in document.lines() {
        let begins = ["- ", "|", "#"]
            .iter()
            .any(|mark| line.trim_start().starts_with(mark));
        if begins || line.trim().is_empty() {
            parts.push(String::new());
        }
        let part = parts.last_mut().expect("a part");
        part.push_str(line);
        part.push('\n');
    }
    parts.retain(|part| !part.trim().is_empty());
    parts
}

#[test]
fn parts_are_told() {
    let parts = parts("# A\n\nb\nc\n- d\n  e\n- f\n\n| g |\n| h |\n");
    let parts: Vec<&str> = parts.iter().map(|part| part.trim()).collect();
    assert_eq!(parts, ["# A", "b\nc", "- d\n  e", "- f", "| g |", "| h |"]);
}

#[test]
fn no_decision_is_long() {
    let parts = parts(&document("docs/DECISIONS.md"));
    let long: Vec<&String> = parts
        .iter()
        .filter(|part| part.trim().chars().count() >= MOST)
        .collect();
    assert!(long.is_empty(), "{} are too long: {long:#?}", long.len());
    assert!(parts.len() > 100, "{} parts", parts.len());
}

/// The titles that a text cites, as DECISIONS "a title" or DECISIONS, "a title", "another".
fn cited(text: &str) -> Vec<&str> {
    let mut titles = Vec::new();
    for (at, name) in text.match_indices("DECISIONS") {
        let mut rest = &text[at + name.len()..];
        while let Some(title) = rest.trim_start_matches([',', ' ']).strip_prefix('"') {
            let end = title.find('"').expect("the end of a title");
            titles.push(title[..end].trim_end_matches(','));
            rest = &title[end + 1..];
        }
    }
    titles
}

#[test]
fn what_is_cited_is_a_decision() {
    let decisions = document("docs/DECISIONS.md");
    let mut count = 0;
    for entry in fs::read_dir(repository("docs")).expect("a folder") {
        let name = entry.expect("an entry").file_name();
        let name = name.to_string_lossy();
        let text = document(&format!("docs/{name}"));
        for title in cited(&text) {
            let marks = [("## ", ""), ("- **", ""), ("- \"", "\"")];
            let stands = |(before, behind): &(&str, &str)| {
                decisions.contains(&format!("\n{before}{title}{behind}"))
            };
            assert!(
                marks.iter().any(stands),
                "{name} cites {title:?}, which is no decision"
            );
            count += 1;
        }
    }
    assert!(count > 20, "{count} titles");
}
