//! Long texts and records, for times and for tests near the limit, each given by its numbers alone;
//! and the worked example.

pub mod clock;
pub mod example;
pub mod taxa;

use taxa::Declared;

/// The longest text that is read.
pub const MEGABYTE: usize = 1_048_576;

/// A text with one data block.
fn data(taxa: usize, characters: usize, commands: &str, matrix: &[u8]) -> Vec<u8> {
    let head = format!(
        "#NEXUS\nBEGIN DATA;\nDIMENSIONS NTAX={taxa} NCHAR={characters};\n{commands}\nMATRIX\n"
    );
    [head.as_bytes(), matrix, b";\nEND;\n"].concat()
}

/// Lines of a name and its cells.
fn lines(taxa: usize, cells: impl Fn(usize, &mut Vec<u8>)) -> Vec<u8> {
    let mut lines = Vec::new();
    for taxon in 0..taxa {
        lines.extend(format!("taxon{taxon:05} ").into_bytes());
        cells(taxon, &mut lines);
        lines.push(b'\n');
    }
    lines
}

// DNA.

const DNA: &str = "FORMAT DATATYPE=DNA MISSING=? GAP=-;";

fn base(taxon: usize, character: usize) -> u8 {
    b"ACGT"[(character * 7 + character / 5 + taxon * 3) % 4]
}

/// DNA of so many taxa and characters, a line for each taxon.
pub fn rows(taxa: usize, characters: usize) -> Vec<u8> {
    let rows = lines(taxa, |taxon, line| {
        line.extend((0..characters).map(|character| base(taxon, character)));
    });
    data(taxa, characters, DNA, &rows)
}

/// One taxon, so long that the text has so many bytes.
pub fn row(length: usize) -> Vec<u8> {
    let rest = rows(1, 1).len() + 8;
    let mut text = rows(1, length - rest);
    text.resize(length, b'\n');
    text
}

/// Interleaved DNA, in pages of so many characters.
pub fn pages(taxa: usize, characters: usize, width: usize) -> Vec<u8> {
    let mut pages = Vec::new();
    for start in (0..characters).step_by(width) {
        let page = start..characters.min(start + width);
        pages.extend(lines(taxa, |taxon, line| {
            line.extend(page.clone().map(|character| base(taxon, character)));
        }));
        pages.push(b'\n');
    }
    let format = "FORMAT DATATYPE=DNA INTERLEAVE MISSING=? GAP=-;";
    data(taxa, characters, format, &pages)
}

// Morphology.

const STANDARD: &str = "FORMAT DATATYPE=STANDARD SYMBOLS=\"0 1 2\" MISSING=? GAP=-;";

/// STANDARD data of so many taxa and characters; with sets, every fourth cell is one.
pub fn standard(taxa: usize, characters: usize, sets: bool) -> Vec<u8> {
    let rows = lines(taxa, |taxon, line| {
        for character in 0..characters {
            let turn = character / 4 + taxon;
            if sets && character % 4 == 3 {
                line.extend([b"{01}", b"(12)", b"{02}"][turn % 3]);
            } else {
                line.push(b"012010?1201-"[(turn * 5 + character) % 12]);
            }
        }
    });
    data(taxa, characters, STANDARD, &rows)
}

/// STANDARD data of one taxon, with the cells 0 and 1 by turns.
fn one_row(characters: usize, commands: &str) -> Vec<u8> {
    let cells = b"01".iter().cycle().take(characters);
    let row: Vec<u8> = b"a ".iter().chain(cells).chain(b"\n").copied().collect();
    data(1, characters, commands, &row)
}

/// So many taxa with short names, at most 456,976, and five characters; the names may be declared
/// too, in the order of the rows.
pub fn names(taxa: usize, declared: bool) -> Vec<u8> {
    let declared = match declared {
        true => Declared::InOrder,
        false => Declared::No,
    };
    taxa::text(&taxa::names(taxa, taxa::four_letters), 5, declared)
}

/// One taxon whose characters all have a label and labels for two states.
pub fn labels(characters: usize) -> Vec<u8> {
    let entries: Vec<String> = (1..=characters)
        .map(|character| format!("{character} character_{character} / absent 'present, and large'"))
        .collect();
    let labels = format!("CHARSTATELABELS\n{};", entries.join(",\n"));
    one_row(characters, &labels)
}

/// One taxon whose characters all have a label, in one list.
pub fn label_list(characters: usize) -> Vec<u8> {
    let labels: Vec<String> = (1..=characters).map(|n| format!("character_{n}")).collect();
    one_row(characters, &format!("CHARLABELS\n{};", labels.join("\n")))
}

/// One taxon whose characters all have labels for two states, the last character first.
pub fn state_labels(characters: usize) -> Vec<u8> {
    let entries: Vec<String> = (1..=characters)
        .rev()
        .map(|character| format!("{character} absent present"))
        .collect();
    one_row(
        characters,
        &format!("STATELABELS\n{};", entries.join(",\n")),
    )
}

/// One taxon and one label of so many bytes for its character.
pub fn long_label(length: usize) -> Vec<u8> {
    one_row(1, &format!("CHARLABELS '{}';", "a_\\".repeat(length / 3)))
}

// Types.

fn typed(characters: usize, typeset: &str) -> Vec<u8> {
    let block = format!("BEGIN ASSUMPTIONS;\nTYPESET {typeset};\nEND;\n");
    [one_row(characters, ""), block.into_bytes()].concat()
}

/// So many characters, each in the one list of a TYPESET by its number.
pub fn listed(characters: usize) -> Vec<u8> {
    let numbers: Vec<String> = (1..=characters).map(|n| n.to_string()).collect();
    typed(characters, &format!("* t = ORD: {}", numbers.join(" ")))
}

/// A list of so many numbers, which come again and again: once it was walked, the text is refused.
pub fn listed_again(numbers: usize) -> Vec<u8> {
    let numbers: Vec<String> = (0..numbers).map(|n| (n % 1_000 + 1).to_string()).collect();
    typed(1_000, &format!("* t = ORD: {}", numbers.join(" ")))
}

/// So many characters, each with a type of its own.
pub fn vector(characters: usize) -> Vec<u8> {
    typed(
        characters,
        &format!("* t (VECTOR) = {}", "ORD ".repeat(characters)),
    )
}

/// The same, with both types in no order.
pub fn mixed_vector(characters: usize) -> Vec<u8> {
    let types: String = (0..characters)
        .map(|character| ["ORD ", "UNORD "][character * character / 7 % 11 % 2])
        .collect();
    typed(characters, &format!("* t (VECTOR) = {types}"))
}

/// So many characters, three of four in ranges of two with a stride, all in one list.
pub fn ranges(characters: usize) -> Vec<u8> {
    let ranges: Vec<String> = (1..characters - 3)
        .step_by(4)
        .map(|first| format!("{first}-{}\\2 {}", first + 2, first + 1))
        .collect();
    typed(characters, &format!("* t = ORD: {}", ranges.join(" ")))
}

/// So many characters, each in a set of its own.
pub fn sets(characters: usize) -> Vec<u8> {
    let sets: Vec<String> = (1..=characters)
        .rev()
        .map(|n| format!("{}: {n}", ["ORD", "UNORD"][n % 2]))
        .collect();
    typed(characters, &format!("* t = {}", sets.join(", ")))
}

// Comments.

/// One row of so many characters, with a comment behind each of them.
pub fn comments(characters: usize) -> Vec<u8> {
    let mut row = b"a ".to_vec();
    for character in 0..characters {
        row.push(base(0, character));
        row.extend(b"[a note]");
    }
    data(1, characters, DNA, &row)
}

/// Taxa with a comment that is so many comments deep in front of the rows.
pub fn deep_comment(depth: usize) -> Vec<u8> {
    data(
        2,
        2,
        "",
        &[&nested(2 * depth), b"\na 01\nb 10\n" as &[u8]].concat(),
    )
}

// Records.

/// The record of so many taxa, named by their numbers, and so many characters. There may be
/// more of them than a text has room for.
pub fn record(taxa: usize, characters: usize) -> Vec<u8> {
    let names: Vec<String> = (0..taxa).map(|taxon| format!("{taxon:x}")).collect();
    named_record(&names, characters)
}

/// The record of taxa with these names, and so many characters.
pub fn named_record(names: &[String], characters: usize) -> Vec<u8> {
    let taxa = names.len();
    let mut record =
        format!("datatype=STANDARD\ntaxa={taxa}\ncharacters={characters}\nsymbols=01\n");
    let cells = vec!["0"; characters].join(" ");
    for name in names {
        record.push_str(&format!("name={name}\ncells={cells}\n"));
    }
    for character in 1..=characters {
        let lines = format!("character={character}\nlabel=\norder=UNORD\nstates=0\n");
        record.push_str(&lines);
    }
    record.into_bytes()
}

// What is no text.

/// As many opening brackets as closing ones behind them.
pub fn nested(length: usize) -> Vec<u8> {
    let mut text = vec![b'['; length / 2];
    text.resize(length, b']');
    text
}
