//! What docs/ cite is there: in SCOPE.md each definition, function, theorem, test, question and edit; in ARCHITECTURE.md besides the line of each
//! place that is given by file and line, and of each edit the line that it changes. A name that is cited with a file is defined in it.

use std::fs;
use std::path::{Path, PathBuf};

fn repository(path: &str) -> PathBuf {
    Path::new(env!("CARGO_MANIFEST_DIR"))
        .join("../..")
        .join(path)
}

fn document(name: &str) -> String {
    fs::read_to_string(repository("docs").join(name)).expect("a document")
}

/// A cited file: below crates/, or from the root of the repository.
fn file(path: &str) -> Option<String> {
    let root = ["host/", "crates/", "include/", "tools/"];
    let path = match root.iter().any(|folder| path.starts_with(folder)) {
        true => path.to_string(),
        false => format!("crates/{path}"),
    };
    fs::read_to_string(repository(&path)).ok()
}

fn is_source(word: &str) -> bool {
    word.contains('/')
        && [".rt", ".antt", ".rs"]
            .iter()
            .any(|ending| word.ends_with(ending))
}

/// The cells of each row of a document's tables, without heads and rules.
fn cells(document: &str) -> Vec<&str> {
    let rows = document.lines().filter(|line| line.starts_with("| "));
    rows.flat_map(|row| row.split(" | ")).collect()
}

/// Whether a name can go on with this.
fn is_part(c: char) -> bool {
    c.is_alphanumeric() || "_-·?".contains(c)
}

/// Words in front of what a line defines: some that say what it is, and others.
const KINDS: [&str; 7] = ["type ", "fn ", "struct ", "enum ", "const ", "record ", "data "];
const MODIFIERS: [&str; 4] = ["pub ", "abbrev ", "unfoldable ", "extern \"C\" "];

/// Whether a line defines a name: with its kind, or as `name :`, which is how `.antt` begins a definition, a field and a constructor.
fn line_defines(line: &str, name: &str) -> bool {
    let mut rest = line.trim_start();
    let mut has_kind = false;
    let front = |rest: &str| {
        let mut words = KINDS.iter().chain(&MODIFIERS);
        words.find(|word| rest.starts_with(**word))
    };
    while let Some(word) = front(rest) {
        has_kind |= KINDS.contains(word);
        rest = &rest[word.len()..];
    }
    let behind = rest.strip_prefix(name);
    behind.is_some_and(|behind| {
        let ends = !behind.starts_with(is_part);
        ends && (has_kind || behind.starts_with(" :"))
    })
}

/// Whether a text defines a name.
fn defines(text: &str, name: &str) -> bool {
    text.lines().any(|line| line_defines(line, name))
}

#[test]
fn what_is_only_met_is_not_defined() {
    for line in [
        "fn a(b: u8) -> u8",
        "pub extern \"C\" fn a(",
        "    pub const a: usize = 1;",
        "pub enum a {",
        "pub type a = b<c>;",
        "pub record a (r : Reading) : Type 0 where",
        "  pub a : List ℕ",
        "  a : ℕ → b",
        "abbrev pub a : Type 0",
    ] {
        assert!(defines(&format!("b\n{line}\nb"), "a"), "{line}");
        assert!(!defines(line, "b"), "{line}");
    }
    for line in [
        "a(b)",
        "a b = c",
        "use b.{a}",
        "-- a : b",
        "fn aa()",
        "pub a·b : c",
    ] {
        assert!(!defines(line, "a"), "{line}");
    }
}

/// What stands in backquotes and can be a name.
fn quoted(text: &str) -> impl Iterator<Item = &str> {
    let parts = text.split('`').skip(1).step_by(2);
    parts.filter(|part| part.chars().all(is_part))
}

/// What a part of a cell cites: how many things, and those that are not there.
fn cited(part: &str, missing: &mut Vec<String>) -> usize {
    let part = part.trim_matches(['|', ' ']);
    let word = part.split([' ', ',']).next().unwrap_or_default();
    if let Some(edit) = part.strip_prefix("edit ") {
        let (name, edit) = edit.split_once('/').expect("a crate and an edit");
        let edit = edit.split([',', ' ', '.']).next().unwrap_or_default();
        let path = format!("crates/{name}/must-fail/{edit}.edit");
        if !repository(&path).is_file() {
            missing.push(path);
        }
        return 1;
    }
    if is_source(word) {
        let Some(text) = file(word) else {
            missing.push(word.to_string());
            return 1;
        };
        let names: Vec<&str> = quoted(&part[word.len()..])
            .filter(|name| !defines(&text, name))
            .collect();
        missing.extend(names.iter().map(|name| format!("{word} {name}")));
        return 1 + quoted(&part[word.len()..]).count();
    }
    match file(&format!("vectors/specs/{word}.antt")) {
        Some(text) => questions(word, &text, &part[word.len()..], missing),
        None => 0,
    }
}

/// The questions of a file of vectors, as `c1, c2` or `c1 to c4`.
fn questions(module: &str, text: &str, list: &str, missing: &mut Vec<String>) -> usize {
    let numbers: Vec<&str> = list
        .split([' ', ','])
        .filter(|word| is_question(word))
        .collect();
    for name in &numbers {
        if !defines(text, name) {
            missing.push(format!("{module} {name}"));
        }
    }
    numbers.len()
}

fn is_question(word: &str) -> bool {
    let number = word.strip_prefix('c').unwrap_or_default();
    !number.is_empty() && number.bytes().all(|b| b.is_ascii_digit())
}

/// Whether a word is a path that begins with a folder of a crate or with host; `nexus/mod.rs` is one of the Rust's.
fn is_rooted(word: &str) -> bool {
    let folders: Vec<&str> = word.split('/').collect();
    folders[0] == "host" || repository("crates").join(folders[..2].join("/")).is_dir()
}

const DOCUMENTS: [&str; 5] = [
    "ARCHITECTURE.md",
    "DECISIONS.md",
    "DEMANDS.md",
    "SCOPE.md",
    "TRUST.md",
];

#[test]
fn every_file_that_is_cited_is_there() {
    let mut count = 0;
    for name in DOCUMENTS {
        let document = document(name);
        let words = document.split(|c: char| !c.is_alphanumeric() && !"_-./".contains(c));
        let words = words.map(|word| word.trim_end_matches('.'));
        let files = words.filter(|word| is_source(word) || word.ends_with(".edit"));
        for word in files.filter(|word| is_rooted(word)) {
            assert!(file(word).is_some(), "{name}: {word} is not there");
            count += 1;
        }
    }
    assert!(count > 500, "{count} files");
}

/// The names that a document cites with a file, each with its path: `name` right behind the path, or in front of it, as `name` of path or `name` (path).
fn named_with_files(document: &str) -> Vec<(&str, &str)> {
    let mut found = Vec::new();
    let path_begins = |(at, _): &(usize, char)| {
        let before = document[..*at].chars().next_back();
        !before.is_some_and(|c| is_part(c) || "./".contains(c))
    };
    for (begin, _) in document.char_indices().filter(path_begins) {
        let rest = &document[begin..];
        let end = rest.find(|c: char| !is_part(c) && !"./".contains(c));
        let path = rest[..end.unwrap_or(rest.len())].trim_end_matches('.');
        if !is_source(path) || !is_rooted(path) {
            continue;
        }
        let behind =
            rest[path.len()..].trim_start_matches(|c: char| c == ':' || c.is_ascii_digit());
        let before = &document[..begin];
        let before = before.strip_suffix(" of ").or(before.strip_suffix(" ("));
        let name = match (behind.strip_prefix(" `"), before) {
            (Some(behind), _) => behind.split('`').next(),
            (None, Some(before)) => before.strip_suffix('`').and_then(|b| b.rsplit('`').next()),
            (None, None) => None,
        };
        found.extend(
            name.filter(|name| name.chars().all(is_part))
                .map(|name| (path, name)),
        );
    }
    found
}

#[test]
fn names_are_defined_in_their_files() {
    let mut count = 0;
    for name in DOCUMENTS {
        for (path, cited) in named_with_files(&document(name)) {
            let text = file(path).unwrap_or_else(|| panic!("{name}: {path} is not there"));
            assert!(
                defines(&text, cited),
                "{name}: {path} does not define {cited}"
            );
            count += 1;
        }
    }
    assert!(count > 600, "{count} names");
}

/// The files of a cell of the map, as `lexer, src/token.rt, label.rt; specs/Bytes.antt`.
fn files_of(cell: &str) -> String {
    let (mut name, mut folder) = ("", "");
    let mut texts = String::new();
    for word in cell.split([';', ',', ' ', '|']) {
        if repository("crates").join(word).join("src").is_dir() && !word.is_empty() {
            name = word;
        } else if (word.ends_with(".rt") || word.ends_with(".antt")) && !word.contains('*') {
            let last = word.rfind('/').map_or(0, |slash| slash + 1);
            if last > 0 {
                folder = &word[..last];
            }
            let path = format!("{name}/{folder}{}", &word[last..]);
            texts.push_str(&file(&path).unwrap_or_else(|| panic!("{path} is not there")));
        }
    }
    texts
}

/// The rows of the table with this head, by cells.
fn table<'a>(document: &'a str, head: &str) -> Vec<Vec<&'a str>> {
    let rows = document.lines().skip_while(|line| !line.starts_with(head));
    let rows = rows.skip(2).take_while(|line| line.starts_with('|'));
    rows.map(|row| row.split(" | ").collect()).collect()
}

/// In the tables of statements and of functions each name is defined in a file of its row: the statement; the function, and what stands in brackets
/// for all of its contract.
#[test]
fn what_the_map_names_is_in_its_files() {
    let map = document("ARCHITECTURE.md");
    let bracket = |cell: &str| {
        cell.rfind("(`")
            .map_or(String::new(), |at| cell[at..].to_string())
    };
    let statements = table(&map, "| demand |");
    let statements = statements
        .iter()
        .map(|row| (row[1].to_string(), row[2..].join(" ")));
    let functions = table(&map, "| function |");
    let functions = functions
        .iter()
        .map(|row| (row[0].to_string() + &bracket(row[1]), row[2].to_string()));
    let mut count = 0;
    for (cited, files) in statements.chain(functions) {
        let texts = files_of(&files);
        for name in quoted(&cited).filter(|_| !texts.is_empty()) {
            assert!(defines(&texts, name), "{name} is not in {files}");
            count += 1;
        }
    }
    assert!(count > 50, "{count} names");
}

#[test]
fn what_scope_cites_is_there() {
    let mut missing = Vec::new();
    let scope = document("SCOPE.md");
    let parts = cells(&scope).into_iter().flat_map(|cell| cell.split("; "));
    let count: usize = parts.map(|part| cited(part, &mut missing)).sum();
    assert_eq!(missing, Vec::<String>::new());
    assert!(count > 900, "{count} citations");
}

/// The places `file:line` of a text, each with the name that stands behind it, if one does.
fn places(text: &str) -> Vec<(String, usize, Option<String>)> {
    let mut found = Vec::new();
    for (at, _) in text
        .match_indices(".rt:")
        .chain(text.match_indices(".antt:"))
    {
        let begin = text[..at]
            .rfind(|c: char| " (`".contains(c))
            .map_or(0, |i| i + 1);
        let colon = at + text[at..].find(':').expect("a colon");
        let digits = text[colon + 1..].find(|c: char| !c.is_ascii_digit());
        let end = digits.map_or(text.len(), |n| colon + 1 + n);
        let Ok(line) = text[colon + 1..end].parse() else {
            continue;
        };
        let behind = text[end..].trim_start_matches([',', ' ']);
        let name = behind
            .strip_prefix('`')
            .and_then(|rest| rest.split('`').next());
        found.push((
            text[begin..colon].to_string(),
            line,
            name.map(str::to_string),
        ));
    }
    found
}

/// The name of what a line belongs to: that of the last function, struct or constant which begins there or before.
fn owner(text: &str, line: usize) -> Option<&str> {
    let heads = text.lines().take(line).filter(|line| {
        let line = line
            .trim_start()
            .trim_start_matches("pub ")
            .trim_start_matches("extern \"C\" ");
        ["fn ", "struct ", "const ", "enum "]
            .iter()
            .any(|head| line.starts_with(head))
    });
    heads.last()
}

#[test]
fn lines_of_the_map_are_those_of_their_names() {
    let map = document("ARCHITECTURE.md");
    let found = places(&map);
    for (path, line, name) in &found {
        let text = file(path).unwrap_or_else(|| panic!("{path} is not there"));
        let Some(name) = name else { continue };
        let there = text.lines().nth(line - 1).unwrap_or_default();
        let owned = owner(&text, *line).is_some_and(|head| line_defines(head, name));
        assert!(
            line_defines(there, name) || owned,
            "{path}:{line} is not in {name}"
        );
    }
    assert!(found.len() > 25, "{} places", found.len());
}

#[test]
fn lines_of_edits_are_those_that_they_change() {
    let map = document("ARCHITECTURE.md");
    let rows = map.lines().filter(|line| line.starts_with("| "));
    let mut count = 0;
    for row in rows {
        let cells: Vec<&str> = row.split(" | ").collect();
        if !cells[1].contains("/must-fail/") {
            continue;
        }
        let edits: Vec<&str> = cells[1].split("; ").collect();
        let places = places(cells[2]);
        assert_eq!(edits.len(), places.len(), "{row}");
        for (edit, (path, line, _)) in edits.iter().zip(&places) {
            let edit = file(edit).unwrap_or_else(|| panic!("{edit} is not there"));
            let old = edit
                .lines()
                .find_map(|line| line.strip_prefix("old: "))
                .expect("an old line");
            let text = file(path).expect("a file");
            let there = text.lines().nth(line - 1).unwrap_or_default();
            assert!(there.contains(old.trim()), "{path}:{line} has not {old}");
            count += 1;
        }
    }
    assert!(count > 10, "{count} edits");
}
