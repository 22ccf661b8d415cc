//! What the reader does where a port is likely to differ: commands, blocks, dimensions, taxa and
//! formats.

mod common;

use common::{bad_row, doc, expect, record, refusal, row, values};

#[test]
fn commands_and_blocks() {
    expect("#NEXUS;", (7, 1, 7));
    expect("#NE[x]XUS\n;", (7, 2, 1));
    expect("#NEXUS BEGIN", (8, 1, 8));
    expect("#NEXUS BEGIN TREES;\n", (9, 1, 14));
    expect("#NEXUS BEGIN TREES; x", (8, 1, 21));
    expect("#NEXUS BEGIN TREES; END x;", (10, 1, 21));
    expect("#NEXUS BEGIN TREES; 'END';", (9, 1, 14));
    expect(
        "#NEXUS BEGIN TREES; END; BEGIN TREES; ENDBLOCK;",
        (14, 1, 1),
    );
    expect("#NEXUS 'BEGIN' DATA;", (11, 1, 8));
    expect("#NEXUS BEGIN DATA x;", (11, 1, 8));
    expect("#NEXUS BEGIN =;", (12, 1, 14));
    expect("#NEXUS BEGIN 'DATA';", (12, 1, 14));
    expect("#NEXUS", (14, 1, 1));
    expect("#NEXUS BEGIN DATA; 'END';", (13, 1, 20));
    expect("#NEXUS BEGIN DATA; END;", (14, 1, 14));
    expect("#NEXUS BEGIN ASSUMPTIONS; ;", (12, 1, 14));
    let text = doc("NTAX=1 NCHAR=1", "", "a 0");
    expect(&format!("{text}BEGIN TAXA; ;"), (12, 8, 7));
    expect(&format!("{text}BEGIN CHARACTERS; ;"), (12, 8, 7));
    expect(
        &format!("{text}BEGIN ASSUMPTIONS; END; BEGIN ASSUMPTIONS; ;"),
        (12, 8, 31),
    );
    expect(&text.replace("END;", "x; END;"), (13, 7, 1));
    expect(&text.replace("END;", "END x;"), (10, 7, 1));
}

#[test]
fn dimensions() {
    let place = |options: &str| refusal(&doc(options, "", "a 0"));
    assert_eq!(place("NTAX=1 NTAX"), (15, 3, 19));
    assert_eq!(place("NEWTAXA NEWTAXA"), (15, 3, 20));
    assert_eq!(place("NEWTAXA=1"), (15, 3, 19));
    assert_eq!(place("NTAX"), (19, 3, 12));
    assert_eq!(place("NTAX="), (19, 3, 12));
    assert_eq!(place("NTAX'='1"), (19, 3, 12));
    assert_eq!(place("NTAX=0"), (15, 3, 17));
    assert_eq!(place("NTAX=+2"), (15, 3, 17));
    assert_eq!(place("NTAX=18446744073709551616"), (15, 3, 17));
    assert_eq!(place("'NTAX'=1"), (15, 3, 12));
    assert_eq!(place("NCHAR=1"), (14, 5, 1));
    assert_eq!(place("NTAX=1"), (14, 5, 1));
    assert_eq!(place(""), (14, 5, 1));
    assert_eq!(place("NTAX=18446744073709551615 NCHAR=1"), (16, 5, 1));
    assert_eq!(place("NTAX=1 NCHAR=18446744073709551615"), (24, 6, 1));
    for value in ["'1'", "\"1\"", "'+1'", "\"+1\"", "0[x]1", "001"] {
        assert_eq!(
            values(
                &record(&doc(&format!("NTAX={value} NCHAR=1"), "", "a 0")),
                "taxa"
            ),
            ["1"]
        );
    }
}

#[test]
fn taxa() {
    let text = |taxa: &str| {
        let data = doc("NCHAR=1", "", "a 0 b 1");
        data.replace("#NEXUS\n", &format!("#NEXUS BEGIN TAXA;\n{taxa} END;\n"))
    };
    let place = |taxa: &str| refusal(&text(taxa));
    assert_eq!(place("DIMENSIONS NTAX=2 NCHAR=1 FOO;"), (15, 2, 27));
    assert_eq!(place("DIMENSIONS NTAX=2 NCHAR=1;"), (15, 2, 1));
    assert_eq!(place("DIMENSIONS NEWTAXA;"), (15, 2, 1));
    assert_eq!(place("DIMENSIONS;"), (14, 2, 1));
    assert_eq!(place("TAXLABELS a b; DIMENSIONS NTAX=2;"), (13, 2, 1));
    assert_eq!(place("DIMENSIONS NTAX=2;"), (14, 1, 14));
    assert_eq!(place(""), (14, 1, 14));
    assert_eq!(place("DIMENSIONS NTAX=3; TAXLABELS a b;"), (16, 1, 14));
    assert_eq!(place("DIMENSIONS NTAX=1; TAXLABELS a b b;"), (18, 2, 34));
    assert_eq!(place("DIMENSIONS NTAX=2; TAXLABELS a c;"), (25, 6, 1));
    let record = record(&text("DIMENSIONS NTAX=2; TAXLABELS B A;"));
    assert_eq!(values(&record, "name"), ["B", "A"]);
    assert_eq!(values(&record, "cells"), ["1", "0"]);
    // In the data block.
    let place = |dimensions: &str, before: &str| refusal(&doc(dimensions, before, "a 0"));
    assert_eq!(place("NCHAR=1", "TAXLABELS;"), (14, 5, 1));
    assert_eq!(place("NCHAR=1 NTAX=1", "TAXLABELS;"), (16, 5, 1));
    assert_eq!(place("NCHAR=1 NEWTAXA", "TAXLABELS a;"), (14, 5, 1));
    assert_eq!(place("NCHAR=1 NEWTAXA", ""), (14, 5, 1));
    let both = text("DIMENSIONS NTAX=2; TAXLABELS a b;").replace("MATRIX", "TAXLABELS = ;MATRIX");
    assert_eq!(refusal(&both), (13, 6, 1));
    // An absent taxon comes after faults of the rows and before those of the labels.
    assert_eq!(
        refusal(&doc("NCHAR=1", "TAXLABELS b; CHARLABELS;", "a 0")),
        (25, 5, 1)
    );
    assert_eq!(
        refusal(&doc("NCHAR=1", "TAXLABELS b; CHARLABELS;", "a 2")),
        (22, 6, 3)
    );
}

#[test]
fn format() {
    let place =
        |options: &str| refusal(&doc("NTAX=1 NCHAR=1", &format!("FORMAT {options};"), "a 0"));
    assert_eq!(place("MISSING=="), (20, 4, 16));
    assert_eq!(place("MISSING=??"), (20, 4, 16));
    assert_eq!(place("LABELS=LEFT"), (20, 4, 14));
    assert_eq!(place("INTERLEAVE NO"), (20, 4, 19));
    assert_eq!(place("INTERLEAVE=MAYBE"), (20, 4, 19));
    assert_eq!(place("INTERLEAVE="), (19, 4, 8));
    assert_eq!(place("DATATYPE=RNA"), (20, 4, 8));
    assert_eq!(place("DATATYPE"), (19, 4, 8));
    assert_eq!(place("GAP=- GAP"), (20, 4, 14));
    assert_eq!(place("SYMBOLS=01"), (20, 4, 16));
    assert_eq!(place("SYMBOLS=\"0\" X"), (20, 4, 20));
    for clash in [
        "SYMBOLS=\"0\"",
        "SYMBOLS=\"0[\"",
        "SYMBOLS=\"aA\"",
        "SYMBOLS=\"0?\"",
        "GAP=?",
        "MISSING=1",
        "DATATYPE=DNA RESPECTCASE",
        "DATATYPE=DNA SYMBOLS=\"acgt\"",
        "DATATYPE=DNA MISSING=A",
        "DATATYPE=DNA GAP=N",
        "DATATYPE=DNA MISSING=-",
    ] {
        assert_eq!(place(clash), (21, 4, 1), "{clash}");
    }
    assert_eq!(
        row(
            "FORMAT SYMBOLS=\"a A\" RESPECTCASE MISSING='x' GAP=\"+\";",
            4,
            "Aax+"
        ),
        "1 0 m g"
    );
    assert_eq!(row("FORMAT SYMBOLS=\"\n0\u{3000}1\";", 1, "1"), "1");
    bad_row("", 1, "-", (22, 6, 3));
    assert_eq!(row("FORMAT DATATYPE=DNA;", 2, "-?"), "g m");
    bad_row("FORMAT DATATYPE=DNA GAP=.;", 1, "-", (22, 6, 3));
    bad_row("FORMAT DATATYPE=DNA MISSING=N;", 1, "?", (22, 6, 3));
    assert_eq!(row("FORMAT DATATYPE=DNA MISSING=n;", 3, "NnA"), "m m 0");
}

#[test]
fn seventy_three_symbols() {
    let valid: String = (33..127u8)
        .map(char::from)
        .filter(|c| !"()[]{}/\\,;:=*'\"`<>~^".contains(*c))
        .collect();
    assert_eq!(valid.len(), 74);
    let format =
        |symbols: &str, more: &str| format!("FORMAT RESPECTCASE SYMBOLS=\"{symbols}\" {more};");
    let text = |states: &str, more: &str| doc("NTAX=1 NCHAR=1", &format(states, more), "a z");
    assert_eq!(
        values(&record(&text(&valid[1..], "MISSING=!")), "symbols"),
        [&valid[1..]]
    );
    assert_eq!(refusal(&text(&valid, "MISSING=!")).0, 21);
    assert_eq!(refusal(&text(&valid[1..], "MISSING=! GAP=#")).0, 21);
    assert_eq!(
        values(&record(&text(&valid[2..], "MISSING=! GAP=#")), "symbols"),
        [&valid[2..]]
    );
}
