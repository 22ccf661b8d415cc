//! The modules of crates/vectors: one for each file of chosen questions, and the one that lists
//! them.

use std::fs;
use std::path::Path;

use definitions::questions::{File, files};

use super::theorem::{Theorem, theorem};

/// A module's name and text.
type Module = (String, String);

/// The module of the words that the theorems use, which is written by hand.
const WORDS: &str = "Asked";

/// Writes the modules of the files in a folder.
pub fn write(chosen: &Path, out: &Path) -> Result<(), String> {
    for (name, text) in modules(chosen)? {
        let path = out.join(format!("{name}.antt"));
        fs::write(&path, text).map_err(|error| format!("{}: {error}", path.display()))?;
    }
    Ok(())
}

fn modules(chosen: &Path) -> Result<Vec<Module>, String> {
    let mut modules = Vec::new();
    for (name, file) in files(chosen)? {
        let module = module(&name, &file).map_err(|error| format!("{name}: {error}"))?;
        modules.push((module_name(&name), module));
    }
    let mut listed = format!("-- Chosen questions with the Rust's answers.\npub mod {WORDS}\n");
    for (name, _) in &modules {
        listed += &format!("pub mod {name}\n");
    }
    modules.push(("Lib".to_string(), listed));
    Ok(modules)
}

/// `12-character-lists.txt` as `CharacterLists`.
fn module_name(file: &str) -> String {
    let words = file.trim_end_matches(".txt").split('-').skip(1);
    let capital = |word: &str| word[..1].to_uppercase() + &word[1..];
    words.map(capital).collect()
}

fn module(name: &str, file: &File) -> Result<String, String> {
    let mut theorems = Vec::new();
    for (number, asked) in file.asked.iter().enumerate() {
        theorems.push(theorem(number + 1, asked)?);
    }
    let about: String = file
        .about
        .iter()
        .map(|line| format!("-- {line}\n"))
        .collect();
    let made = format!("-- Made from host/definitions/chosen/{name}, with the Rust's answers.\n");
    let texts: String = theorems.iter().map(|t| format!("\n{}", t.text)).collect();
    Ok(about + &made + &imports(&theorems) + &texts)
}

/// The imports that these theorems need.
fn imports(theorems: &[Theorem]) -> String {
    let used = |word: &str| theorems.iter().any(|t| t.words.contains(&word));
    let mut lines = String::new();
    for (module, words) in [
        (
            "Rattle.std.specs.Prelude",
            &["[]", "◌∷◌", "◌++◌", "◌≡◌", "refl"][..],
        ),
        ("Rattle.lexer.specs.Base", &["bytes"]),
        ("Rattle.record.specs.Run", &["run_lookup"]),
        (
            "Rattle.vectors.specs.Asked",
            &["read", "read_with_little", "write", "answered", "refused"],
        ),
    ] {
        let words: Vec<&str> = words.iter().copied().filter(|word| used(word)).collect();
        if !words.is_empty() {
            lines += &format!("use {module}.{{{}}}\n", words.join(", "));
        }
    }
    lines
}

#[cfg(test)]
mod tests {
    use super::*;
    use definitions::questions::{Call, folder};
    use oracle::messages::TABLE;
    use oracle::tally::Tally;
    use std::collections::BTreeSet;

    fn repository() -> &'static Path {
        Path::new(concat!(env!("CARGO_MANIFEST_DIR"), "/../.."))
    }

    #[test]
    fn a_file_gives_a_module_its_name() {
        assert_eq!(module_name("03-character-lists.txt"), "CharacterLists");
    }

    /// The modules are not changed by hand, and none is left over.
    #[test]
    fn the_modules_are_those_of_the_files() {
        let specs = repository().join("crates/vectors/specs");
        let mut names: BTreeSet<String> = [format!("{WORDS}.antt")].into();
        for (name, text) in modules(&folder()).expect("modules") {
            let path = specs.join(format!("{name}.antt"));
            let written = fs::read_to_string(&path).unwrap_or_default();
            assert!(written == text, "{name} is not what the tool writes");
            assert!(text.lines().count() <= 400, "{name} is too long");
            names.insert(format!("{name}.antt"));
        }
        let entries = fs::read_dir(specs).expect("the folder of the modules");
        let there = entries.map(|entry| entry.expect("an entry").file_name());
        let there: BTreeSet<String> = there.map(|name| name.to_string_lossy().into()).collect();
        assert_eq!(there, names);
    }

    /// Every place in the Rust that refuses is met by a chosen text.
    #[test]
    fn every_row_of_the_table_is_met() {
        let mut tally = Tally::default();
        for (_, file) in files(&folder()).expect("files") {
            for asked in file.asked {
                if let Call::Read { text, .. } = asked.call {
                    tally.add(&text);
                }
            }
        }
        let rows = TABLE.iter().zip(&tally.rows);
        let missed = rows.filter(|(_, count)| **count == 0);
        let missed: Vec<&str> = missed.map(|(row, _)| row.site).collect();
        assert_eq!(missed, Vec::<&str>::new());
        assert!(tally.read >= 80, "{} texts are read", tally.read);
    }

    /// Every refusal of a call is met; 1 and 32 need a megabyte. A lookup that finds has 0.
    #[test]
    fn every_refusal_is_met() {
        let mut met = BTreeSet::new();
        for (_, text) in modules(&folder()).expect("modules") {
            let answers = text.lines().filter_map(|line| line.strip_prefix("    ≡ "));
            let numbers = answers.filter_map(|answer| {
                let answer = answer.trim_start_matches("refused ");
                answer.split(' ').next()?.parse::<u32>().ok()
            });
            met.extend(numbers);
        }
        let all = (0..=33).filter(|number| ![1, 32].contains(number));
        assert_eq!(met, all.collect());
    }

    #[test]
    fn no_question_is_asked_twice() {
        let mut seen = BTreeSet::new();
        for (name, file) in files(&folder()).expect("files") {
            for asked in file.asked {
                let question = format!("{:?}", asked.call);
                assert!(seen.insert(question), "{name}: {}", asked.shows);
            }
        }
    }
}
