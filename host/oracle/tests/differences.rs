//! Each row of docs/DIFFERENCES.md says what the reader does with its text, and names a definition
//! that is there.

use std::fs;
use std::path::{Path, PathBuf};

use oracle::answer::{Answer, ENOUGH, read};

fn repository(path: &str) -> PathBuf {
    Path::new(env!("CARGO_MANIFEST_DIR"))
        .join("../..")
        .join(path)
}

struct Row {
    what: String,
    text: String,
    answer: String,
    stated: String,
}

/// The rows of all tables, without their heads.
fn rows() -> Vec<Row> {
    let document = fs::read_to_string(repository("docs/DIFFERENCES.md")).expect("the document");
    let lines = document.lines().filter(|line| line.starts_with("| "));
    let lines = lines.filter(|line| !line.starts_with("| what |"));
    lines.map(row).collect()
}

fn row(line: &str) -> Row {
    let cells: Vec<&str> = line.split(" | ").collect();
    let [what, _, _, text, answer, stated] = cells[..] else {
        panic!("{line} has not six cells")
    };
    Row {
        what: what.trim_start_matches("| ").to_string(),
        text: quoted(text).expect("a text in backquotes").to_string(),
        answer: answer.to_string(),
        stated: stated.trim_end_matches(" |").to_string(),
    }
}

/// What stands between a cell's backquotes.
fn quoted(cell: &str) -> Option<&str> {
    cell.strip_prefix('`')?.strip_suffix('`')
}

/// Whether an answer is what the row says: a line of the record, or number and place.
fn says(row: &Row, answer: &Answer) -> bool {
    match (answer, quoted(&row.answer)) {
        (Answer::Bytes(record), Some(line)) => {
            let record = std::str::from_utf8(record).expect("a record");
            record.lines().any(|each| each == line)
        }
        (Answer::Refused(r), None) => {
            row.answer == format!("{} at {},{}", r.number, r.line, r.column)
        }
        _ => false,
    }
}

#[test]
fn each_text_has_its_answer() {
    for row in rows() {
        let answer = read(row.text.as_bytes(), ENOUGH, ENOUGH);
        assert!(says(&row, &answer), "{}: {answer:?}", row.what);
    }
}

/// `block, `Typeset.antt`: `star`` names a definition in a file of a crate.
#[test]
fn each_definition_is_there() {
    for row in rows() {
        let parts: Vec<&str> = row.stated.split(['`', ' ', ',', ':']).collect();
        let parts: Vec<&str> = parts.into_iter().filter(|part| !part.is_empty()).collect();
        let [layer, file, name] = parts[..] else {
            panic!("{}: {}", row.what, row.stated)
        };
        let path = repository(&format!("crates/{layer}/specs/{file}"));
        let text = fs::read_to_string(path).expect("a file of definitions");
        let defines = |line: &str| {
            let words: Vec<&str> = line.split_whitespace().collect();
            words.windows(2).any(|two| two == [name, ":"])
        };
        assert!(text.lines().any(defines), "{}: {}", row.what, row.stated);
    }
}

#[test]
fn the_four_of_document_01_stand_first() {
    let rows = rows();
    let first: Vec<&str> = rows.iter().take(4).map(|row| row.what.as_str()).collect();
    let four = [
        "a TYPESET without `*`",
        "`_` inside single quotes",
        "NEWTAXA",
        "a quoted number",
    ];
    assert_eq!(first, four);
}
