//! docs/REFUSALS.md.

use std::fmt::Write;

use super::{Entry, Example, all};

const HEAD: &str = "# Refusals

What is refused is refused by one of these 33 numbers, those of document 01, for its first fault. Where the refusal has a place, it has a line and a column, both counting from 1; columns count characters, and not bytes. `docs/MESSAGES.md` has the messages of the Rust behind the numbers 4 to 29.

Each number has an example that is refused by it, and the example mended; a test makes every one of these calls. This page is made of the table in `host/nexus/src/refusals`, and a test holds it equal to that. To write it anew:

    cd host && cargo run --release --offline --package nexus --example refusals > ../docs/REFUSALS.md

| number | stands for |
|---|---|
";

/// The page that has all entries: docs/REFUSALS.md, whole.
///
/// ```
/// let page = nexus::refusals::page();
/// assert!(page.contains("\n## 33: no taxon has the name\n"));
/// ```
pub fn page() -> String {
    let mut page = HEAD.to_string();
    // Writing to a string does not fail.
    for entry in all() {
        let _ = writeln!(page, "| {} | {} |", entry.number, entry.title);
    }
    for entry in all() {
        let _ = section(&mut page, entry);
    }
    page
}

fn section(page: &mut String, entry: &Entry) -> std::fmt::Result {
    let (refused, mended) = (&entry.refused, &entry.mended);
    writeln!(page, "\n## {}: {}\n", entry.number, entry.title)?;
    writeln!(page, "{}\n\n{}\n", entry.sentence, entry.meaning)?;
    writeln!(page, "*Place.* {}\n", entry.place)?;
    let at = match entry.at {
        (0, 0) => String::new(),
        (line, column) => format!(", at line {line}, column {column}"),
    };
    writeln!(page, "*Refused*, when {}{at}:\n", refused.call())?;
    indented(page, refused)?;
    writeln!(page, "\n*Mend.* {}\n", entry.mend)?;
    if mended.bytes() == refused.bytes() {
        return writeln!(page, "*Not refused*, when {}: the same.", mended.call());
    }
    writeln!(page, "*Not refused*, when {}:\n", mended.call())?;
    indented(page, mended)
}

fn indented(page: &mut String, example: &Example) -> std::fmt::Result {
    let shown = example.to_string();
    let mut lines = shown.lines();
    lines.try_for_each(|line| writeln!(page, "    {line}"))
}
