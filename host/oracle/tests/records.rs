//! The conditions of refusal 31, and the written form.

mod common;

use common::{record, refused, values};
use oracle::answer::{Answer, ENOUGH, write};
use oracle::record::{spell, unspell};

/// A record of one taxon and one character.
fn small() -> String {
    "datatype=STANDARD\ntaxa=1\ncharacters=1\nsymbols=01\nname=a\ncells=0\n\
     character=1\nlabel=\norder=UNORD\nstates=0\n"
        .into()
}

fn two_taxa(first: &str, second: &str) -> String {
    small().replace("taxa=1", "taxa=2").replace(
        "name=a\ncells=0\n",
        &format!("name={first}\ncells=0\nname={second}\ncells=1\n"),
    )
}

#[track_caller]
fn sound(record: &str) {
    let reading = unspell(record.as_bytes());
    let reading = reading.unwrap_or_else(|| panic!("{record:?} is refused"));
    assert_eq!(spell(&reading), record.as_bytes());
}

#[track_caller]
fn broken(record: &str) {
    assert_eq!(unspell(record.as_bytes()), None, "{record:?}");
    assert_eq!(write(record.as_bytes(), ENOUGH), refused(31, 0, 0));
    assert_eq!(write(record.as_bytes(), 0), refused(31, 0, 0));
}

#[test]
fn names() {
    for name in [
        "a",
        " ",
        "\\0 ",
        "\\1",
        "\\10",
        "é",
        "\u{0}",
        "\u{feff}",
        "a\tb",
        "=",
        "\u{2028}x",
        " \u{a0}",
    ] {
        sound(&small().replace("name=a", &format!("name={name}")));
        sound(&small().replace("label=", &format!("label={name}")));
        let states = format!("states=2\nstate={name}\nstate={name}");
        sound(&small().replace("states=0", &states));
    }
    for name in [
        "_",
        "a_",
        "\\",
        "\\2",
        "\\n",
        "\\0",
        "\u{a0}",
        "\t",
        "a\r",
        "\r",
        "\u{3000}\\0",
    ] {
        broken(&small().replace("name=a", &format!("name={name}")));
        broken(&small().replace("label=", &format!("label={name}")));
        broken(&small().replace("states=0", &format!("states=1\nstate={name}")));
    }
    broken(&small().replace("name=a", "name="));
    broken(&small().replace("states=0", "states=1\nstate="));
    sound(&two_taxa("é", "É"));
    sound(&two_taxa("K", "\u{212a}"));
    broken(&two_taxa("aB", "Ab"));
    let mut bytes = small().into_bytes();
    let at = small().find("name=a").expect("a name") + 5;
    bytes[at] = 0xff;
    assert_eq!(unspell(&bytes), None);
}

#[test]
fn counts() {
    for count in [
        "0",
        "01",
        "+1",
        "1 ",
        "",
        "2",
        "1048577",
        "18446744073709551617",
        "4294967297",
        "1x",
    ] {
        broken(&small().replace("taxa=1", &format!("taxa={count}")));
        broken(&small().replace("characters=1", &format!("characters={count}")));
        broken(&small().replace("character=1", &format!("character={count}")));
    }
    for count in ["00", "-0", "", "1", "3", "x"] {
        broken(&small().replace("states=0", &format!("states={count}")));
    }
    sound(&small().replace("states=0", "states=2\nstate=x\nstate=y"));
    broken(&small().replace("states=0", "states=3\nstate=x\nstate=y\nstate=z"));
    broken("");
    broken(&format!("{}\n", small()));
    broken(small().trim_end());
    broken(&small().replace('\n', "\r\n"));
}

#[test]
fn a_million_taxa_are_a_record_and_one_more_is_not() {
    let record = |count: usize| {
        let rows: String = (0..count).map(|i| format!("name={i}\ncells=0\n")).collect();
        let taxa = small().replace("taxa=1", &format!("taxa={count}"));
        taxa.replace("name=a\ncells=0\n", &rows)
    };
    assert!(unspell(record(1_048_576).as_bytes()).is_some());
    assert!(unspell(record(1_048_577).as_bytes()).is_none());
}

fn symbols(symbols: &str, cells: &str) -> String {
    let record = small().replace("symbols=01", &format!("symbols={symbols}"));
    record.replace("cells=0", &format!("cells={cells}"))
}

#[test]
fn alphabets() {
    let bytes = (33..127u8).map(char::from);
    let valid: String = bytes
        .filter(|c| !"()[]{}/\\,;:=*'\"`<>~^".contains(*c))
        .collect();
    sound(&symbols("aA", "1"));
    sound(&symbols(&valid[1..], "72"));
    sound(&symbols(&valid[..73], "m"));
    sound(&symbols(&valid[2..], "g"));
    broken(&symbols(&valid[1..], "g"));
    broken(&symbols(&valid, "0"));
    for alphabet in ["", "0", "00", "010", "0 1", "0~", "0é", "0\u{7f}", "0="] {
        broken(&symbols(alphabet, "0"));
    }
    let dna = symbols("ACGT", "u0").replace("STANDARD", "DNA");
    sound(&dna);
    sound(&dna.replace("u0", "g"));
    sound(&dna.replace("u0", "p3"));
    sound(&symbols("ACGT", "g"));
    broken(&dna.replace("ACGT", "acgt"));
    broken(&dna.replace("ACGT", "ACGTN"));
    broken(&dna.replace("order=UNORD", "order=ORD"));
    broken(&dna.replace("DNA", "dna"));
    broken(&dna.replace("DNA", "RNA"));
}

#[test]
fn cells() {
    for cell in ["0", "1", "u0", "u1", "u0.1", "p0", "p0.1", "m", "g"] {
        sound(&symbols("01", cell));
    }
    for cell in [
        "", "2", "00", "01", "u", "u.", "u2", "u0.", "u1.0", "u0.0", "p", "0.1", "mm", "M", " 0",
        "0 ", "0 0", "-1", "u0,1", "u0.01",
    ] {
        broken(&symbols("01", cell));
    }
    let order = |order: &str| small().replace("order=UNORD", &format!("order={order}"));
    sound(&order("ORD"));
    for wrong in ["ord", "", "UNORD ", "X"] {
        broken(&order(wrong));
    }
}

#[track_caller]
fn form(record: &str) -> String {
    match write(record.as_bytes(), ENOUGH) {
        Answer::Bytes(form) => String::from_utf8(form).expect("a form in UTF-8"),
        other => panic!("{record:?}: {other:?}"),
    }
}

/// The line of FORMAT in the form of a record with these symbols and this cell.
fn format_line(alphabet: &str, cell: &str) -> String {
    form(&symbols(alphabet, cell))
        .lines()
        .nth(3)
        .expect("FORMAT")
        .into()
}

#[test]
fn the_form_takes_the_lowest_free_symbols() {
    let format = |alphabet, cell| format_line(alphabet, cell);
    assert_eq!(
        format("01", "m"),
        "FORMAT DATATYPE=STANDARD RESPECTCASE MISSING=! SYMBOLS=\"01\";"
    );
    assert_eq!(
        format("01", "g"),
        "FORMAT DATATYPE=STANDARD RESPECTCASE MISSING=! GAP=# SYMBOLS=\"01\";"
    );
    assert_eq!(
        format("!$", "g"),
        "FORMAT DATATYPE=STANDARD RESPECTCASE MISSING=# GAP=% SYMBOLS=\"!$\";"
    );
    assert_eq!(
        format("!#", "0"),
        "FORMAT DATATYPE=STANDARD RESPECTCASE MISSING=$ SYMBOLS=\"!#\";"
    );
    let dna = symbols("ACGT", "u0.1.2.3").replace("STANDARD", "DNA");
    let form = form(&dna);
    assert_eq!(
        form.lines().nth(3),
        Some("FORMAT DATATYPE=DNA MISSING=? GAP=-;")
    );
    assert_eq!(form.lines().nth(5), Some("'a' {ACGT}"));
}

#[test]
fn the_form_of_labels_and_types() {
    let text = "#NEXUS BEGIN DATA; DIMENSIONS NTAX=1 NCHAR=4; CHARSTATELABELS 1 'it''s' / _ 'x\ny', 3 / \\1, 4 é;
        MATRIX 'a\\\u{a0} b' 01{01}?; END; BEGIN ASSUMPTIONS; TYPESET t = ORD: 2; END;"
        .replace("/ \\1", "/ '\\1'");
    let record = record(&text);
    assert_eq!(values(&record, "label"), ["it's", "", "", "é"]);
    assert_eq!(
        form(&record),
        "#NEXUS\nBEGIN DATA;\nDIMENSIONS NTAX=1 NCHAR=4;\n\
         FORMAT DATATYPE=STANDARD RESPECTCASE MISSING=! SYMBOLS=\"01\";\n\
         CHARSTATELABELS 1 'it''s' / '_' 'x\ny', 3 / '\\1', 4 'é';\n\
         MATRIX\n'a\\\u{a0}_b' 01{01}!\n;\nEND;\n\
         BEGIN ASSUMPTIONS;\nTYPESET * w (VECTOR) = UNORD ORD UNORD UNORD;\nEND;\n"
    );
}
