//! What can be counted is printed by tools/counts, and no document repeats it.

use std::fs;
use std::path::{Path, PathBuf};
use std::process::Command;

fn repository(path: &str) -> PathBuf {
    Path::new(env!("CARGO_MANIFEST_DIR"))
        .join("../..")
        .join(path)
}

/// What the tool prints.
fn printed() -> String {
    let output = Command::new(repository("tools/counts")).output();
    let output = output.expect("tools/counts runs");
    assert!(output.status.success(), "{output:?}");
    String::from_utf8(output.stdout).expect("UTF-8")
}

/// How many lines of the files below a folder with this ending are of a kind, but for what rt made
/// in folders out.
fn lines(folder: &Path, ending: &str, kind: fn(&str) -> bool) -> usize {
    let entries = fs::read_dir(folder).expect("a folder");
    let counts = entries.map(|entry| {
        let path = entry.expect("an entry").path();
        if path.is_dir() && path.ends_with("out") {
            return 0;
        }
        if path.is_dir() {
            return lines(&path, ending, kind);
        }
        if !path.to_string_lossy().ends_with(ending) {
            return 0;
        }
        let text = fs::read_to_string(path).expect("a text");
        text.lines().filter(|line| kind(line)).count()
    });
    counts.sum()
}

#[test]
fn the_tool_counts() {
    let printed = printed();
    let crates = fs::read_to_string(repository("crates.txt")).expect("crates.txt");
    let crates = crates.lines().filter(|line| !line.starts_with('#'));
    let crates = crates.filter_map(|line| line.split([':', ' ']).next());
    for name in crates.chain(["all"]) {
        let row = |line: &&str| line.split_whitespace().next() == Some(name);
        let row = printed.lines().find(row);
        let row = row.unwrap_or_else(|| panic!("there is no row of {name}"));
        let numbers: Vec<usize> = row
            .split_whitespace()
            .skip(1)
            .map(|number| number.parse().expect("a number"))
            .collect();
        let folder = |part: &str| match name {
            "all" => repository("crates"),
            _ => repository("crates").join(name).join(part),
        };
        let functions = lines(&folder("src"), ".rt", |line| line.contains("fn "));
        assert_eq!(numbers[0], functions, "{name}");
        assert_eq!(numbers[6], lines(&folder("src"), ".rt", |_| true), "{name}");
    }
    let edits = lines(&repository("crates"), ".edit", |line| {
        line.starts_with("file: ")
    });
    assert!(printed.contains(&format!("\nmust-fail edits: {edits}, ")));
}

/// The functions without a contract are those that docs/TRUST.md speaks of.
#[test]
fn functions_without_a_contract() {
    let printed = printed();
    let listed = printed
        .lines()
        .skip_while(|line| *line != "without ensures:");
    let listed = listed.skip(1).take_while(|line| !line.is_empty());
    let (cases, others): (Vec<&str>, Vec<&str>) =
        listed.partition(|line| line.starts_with("  cases: "));
    assert_eq!((cases.len(), &others[..]), (1, &["  nexus: main"][..]));
}

/// What is counted, and words that may stand between it and its number.
const COUNTED: [&str; 8] = [
    "functions",
    "edits",
    "questions",
    "tests",
    "theorems",
    "crates",
    "loops",
    "texts",
];
const BETWEEN: [&str; 6] = [
    "chosen",
    "generated",
    "must-fail",
    "proved",
    "public",
    "short",
];

/// Lines that are shown as they are printed, here or elsewhere, say what was counted at one time.
#[test]
fn no_document_repeats_a_count() {
    for name in [
        "ARCHITECTURE",
        "DECISIONS",
        "SCOPE",
        "TRUST",
        "WORKING",
        "../README",
    ] {
        let path = repository("docs").join(format!("{name}.md"));
        let document = fs::read_to_string(path).expect("a document");
        for line in document.lines().filter(|line| !line.starts_with("    ")) {
            let words: Vec<&str> = line
                .split(|c: char| !c.is_alphanumeric() && !",-".contains(c))
                .collect();
            for (at, _) in words.iter().enumerate().filter(|(_, word)| is_count(word)) {
                let next = words[at + 1..].iter().find(|word| !BETWEEN.contains(word));
                let repeated =
                    next.is_some_and(|word| COUNTED.contains(&word.trim_end_matches(',')));
                assert!(
                    !repeated,
                    "{name}.md repeats a count: {}",
                    words[at..].join(" ")
                );
            }
        }
    }
}

/// Whether a word is a number of two digits or more.
fn is_count(word: &str) -> bool {
    word.len() > 1
        && word
            .bytes()
            .all(|byte| byte.is_ascii_digit() || byte == b',')
}
