//! What the table of refusals says in its meanings, sentence by sentence: texts with the number that
//! refuses them, 0 where they are read. The oracle and the calls must agree with each.

use oracle::answer::{self, Answer, ENOUGH};

/// Whole texts, about their beginning, their blocks and how these end.
const TEXTS: &[(&str, u32)] = &[
    ("", 6),
    (
        "#nexus BEGIN DATA; DIMENSIONS NTAX=1 NCHAR=1; MATRIX a 0; END;",
        0,
    ),
    ("[x]\n #NEXUS", 14),
    ("\u{feff}#NEXUS", 14),
    ("#NEXUS;", 7),
    ("#NEXUS BEGIN TREES; END;;", 7),
    ("#NEXUS BEGIN TREES; tree; ENDBLOCK;", 14),
    ("#NEXUS BEGIN TREES; 'END';", 9),
    ("#NEXUS BEGIN TREES; END", 8),
    ("#NEXUS BEGIN TREES; END TREES;", 10),
    ("#NEXUS BEGIN TREES END;", 11),
    ("#NEXUS TREES;", 11),
    ("#NEXUS BEGIN 'TREES'; END;", 12),
    ("#NEXUS BEGIN SETS; END;", 12),
    ("#NEXUS BEGIN ASSUMPTIONS; END;", 12),
    ("#NEXUS BEGIN TAXA; DIMENSIONS NTAX=1; END;", 14),
    ("#NEXUS BEGIN TAXA; TAXLABELS a; END;", 13),
    ("#NEXUS BEGIN TAXA; DIMENSIONS; TAXLABELS a; END;", 14),
    (
        "#NEXUS BEGIN TAXA; DIMENSIONS NTAX=1 NCHAR=1; TAXLABELS a; END;",
        15,
    ),
    (
        "#NEXUS BEGIN TAXA; DIMENSIONS NTAX=2; TAXLABELS a; END;",
        16,
    ),
    ("#NEXUS 'a[b' \"c'd\" [e'f[g]\"];", 11),
    ("#NEXUS 'a", 4),
    ("#NEXUS \"a\"\"b", 4),
    ("#NEXUS 'a''", 4),
    ("#NEXUS [a[b]", 5),
];

/// What may follow a whole DATA block.
const BEHIND: &[(&str, u32)] = &[
    ("BEGIN TREES; anything (goes), here; END;", 0),
    ("BEGIN TAXA; DIMENSIONS NTAX=1; TAXLABELS a; END;", 12),
    ("BEGIN CHARACTERS; END;", 12),
    ("BEGIN ASSUMPTIONS; END; BEGIN ASSUMPTIONS; END;", 12),
    ("DIMENSIONS NTAX=1;", 11),
];

/// Commands of a DATA block.
const DATA: &[(&str, u32)] = &[
    ("TITLE x;", 13),
    ("DIMENSIONS NTAX=1 NCHAR=1; DIMENSIONS NTAX=1 NCHAR=1;", 13),
    ("DIMENSIONS NTAX=1 NCHAR=1; MATRIX a 0; CHARLABELS x;", 13),
    ("MATRIX a 0;", 14),
    ("DIMENSIONS NTAX=1; MATRIX a 0;", 14),
    ("DIMENSIONS NCHAR=1; MATRIX a 0;", 14),
    ("DIMENSIONS NTAX=1 NCHAR=1;", 14),
    ("DIMENSIONS NCHAR=1; TAXLABELS a; MATRIX a 0;", 0),
    ("DIMENSIONS NCHAR=1 NEWTAXA; TAXLABELS a; MATRIX a 0;", 14),
    ("DIMENSIONS NTAX='+1' NCHAR=1; MATRIX a 0;", 0),
    ("DIMENSIONS NTAX=+1 NCHAR=1; MATRIX a 0;", 15),
    ("DIMENSIONS NTAX=-1 NCHAR=1; MATRIX a 0;", 15),
    ("DIMENSIONS NTAX=1 NTAX=1 NCHAR=1; MATRIX a 0;", 15),
    ("DIMENSIONS NCHARS=1;", 15),
    (
        "DIMENSIONS NTAX=18446744073709551615 NCHAR=1; MATRIX a 0;",
        16,
    ),
    (
        "DIMENSIONS NTAX=18446744073709551616 NCHAR=1; MATRIX a 0;",
        15,
    ),
    ("DIMENSIONS NTAX;", 19),
    ("DIMENSIONS NTAX=2 NCHAR=1; TAXLABELS a; MATRIX a 0;", 16),
    ("DIMENSIONS NTAX=2 NCHAR=1; MATRIX a 0;", 16),
    ("DIMENSIONS NTAX=1 NCHAR=1; MATRIX a 0 1;", 16),
    ("DIMENSIONS NTAX=1 NCHAR=1; MATRIX \"a\" 0;", 17),
    ("DIMENSIONS NTAX=1 NCHAR=1; MATRIX ' ' 0;", 17),
    ("DIMENSIONS NTAX=1 NCHAR=1; MATRIX (a) 0;", 17),
    ("DIMENSIONS NTAX=2 NCHAR=1; MATRIX a_b 0 'A b' 1;", 18),
    ("DIMENSIONS NTAX=2 NCHAR=1; MATRIX é 0 É 1;", 0),
    (
        "DIMENSIONS NTAX=2 NCHAR=1; TAXLABELS a b; MATRIX B 1 A 0;",
        0,
    ),
    (
        "DIMENSIONS NTAX=2 NCHAR=1; TAXLABELS a b; MATRIX a 1 c 0;",
        25,
    ),
];

/// FORMAT commands before two characters, and their cells.
const FORMATS: &[(&str, &str, u32)] = &[
    ("DATATYPE", "01", 19),
    ("SYMBOLS", "01", 19),
    ("MISSING", "01", 19),
    ("GAP=", "01", 19),
    ("INTERLEAVE=NO LABELS NOTOKENS RESPECTCASE", "01", 0),
    ("INTERLEAVE=MAYBE", "01", 20),
    ("LABELS LABELS", "01", 20),
    ("LABELS=LEFT", "01", 20),
    ("EQUATE=\"a=0\"", "01", 20),
    ("DATATYPE=PROTEIN", "01", 20),
    ("MISSING=ab", "01", 20),
    ("SYMBOLS=\"0\"", "00", 21),
    ("SYMBOLS=\"0~\"", "00", 21),
    ("SYMBOLS=\"aA\"", "aA", 21),
    ("SYMBOLS=\"aA\" RESPECTCASE", "aA", 0),
    ("GAP=1", "00", 21),
    ("MISSING=- GAP=-", "00", 21),
    ("DATATYPE=DNA SYMBOLS=\"ACGT\"", "ac", 0),
    ("DATATYPE=DNA SYMBOLS=\"ACTG\"", "AC", 21),
    ("DATATYPE=DNA RESPECTCASE", "AC", 21),
    ("DATATYPE=DNA MISSING=N", "AN", 0),
    ("DATATYPE=DNA MISSING=R", "AC", 21),
    ("DATATYPE=DNA GAP=N", "AC", 21),
    ("DATATYPE=DNA", "R?", 0),
    ("DATATYPE=DNA", "A-", 0),
    ("DATATYPE=DNA GAP=.", "A-", 22),
    ("DATATYPE=DNA", "A0", 22),
    ("DATATYPE=DNA", "A{R}", 23),
    ("LABELS", "0-", 22),
    ("LABELS", "'01'", 22),
    ("LABELS", "0{01)", 22),
    ("LABELS", "0{0?}", 23),
    ("LABELS", "0(", 23),
    ("LABELS", "(1){0}", 0),
    ("LABELS", "0\n1", 0),
    ("LABELS", "0", 24),
    ("INTERLEAVE", "0\na 1", 0),
    ("INTERLEAVE", "0", 16),
    ("INTERLEAVE", "0\nb 1", 24),
    ("INTERLEAVE", "0\na", 24),
    ("INTERLEAVE", "0\na 11", 24),
    ("INTERLEAVE", "0{0\n1}", 23),
];

/// Label commands before two characters with two symbols.
const LABELS: &[(&str, u32)] = &[
    ("CHARLABELS x", 16),
    ("CHARLABELS x x", 0),
    ("STATELABELS 1 x y, 2 z", 0),
    ("STATELABELS 1 x / y", 17),
    ("CHARSTATELABELS 1, 2 / x y,", 0),
    ("CHARSTATELABELS 1 x,, 2 y", 26),
    ("CHARSTATELABELS 1 x y", 26),
    ("CHARSTATELABELS 1 x / a b c", 26),
    ("CHARSTATELABELS 1 x, 1 y", 26),
    ("CHARSTATELABELS 1 x, 1 / y", 0),
    ("CHARSTATELABELS 1 x; CHARLABELS a b", 26),
    ("CHARSTATELABELS 0 x", 26),
];

/// Commands of ASSUMPTIONS behind three characters.
const TYPES: &[(&str, u32)] = &[
    ("OPTIONS DEFTYPE=ORD;", 0),
    ("OPTIONS DEFTYPE=IRREV;", 27),
    ("OPTIONS DEFTYPE ORD;", 13),
    ("OPTIONS DEFTYPE=ORD; OPTIONS DEFTYPE=ORD;", 13),
    ("TYPESET t (STANDARD) = ORD: 1, UNORD: 2-.;", 0),
    ("TYPESET t (VECTOR) = ORD ORD UNORD;", 0),
    ("TYPESET t (VECTOR) = ORD ORD;", 16),
    ("TYPESET t (MATRIX) = ORD: 1;", 27),
    ("TYPESET \"t\" = ORD: 1;", 17),
    ("TYPESET t ORD: 1;", 27),
    ("TYPESET t = ORD 1;", 27),
    ("TYPESET t = ORD: 1,;", 27),
    ("TYPESET t = ORD: 1 1;", 27),
    ("TYPESET t = ORD: 1, UNORD: 1;", 27),
    ("TYPESET t = ORD: 1-3\\2;", 0),
    ("TYPESET t = ORD: ALL\\'2';", 0),
    ("TYPESET t = ORD: ;", 28),
    ("TYPESET t = ORD: 4;", 28),
    ("TYPESET t = ORD: wing;", 28),
    ("TYPESET t = ORD: '1';", 28),
    ("TYPESET t = ORD: 1-ALL;", 28),
    ("TYPESET t = ORD: 3-2;", 28),
    ("TYPESET t = ORD: 1-;", 28),
    ("TYPESET t = ORD: 1-3\\0;", 28),
];

/// What the oracle and the calls say: the number, 0 for a text that is read.
#[track_caller]
fn says(text: &str, number: u32) {
    let right = match answer::read(text.as_bytes(), ENOUGH, ENOUGH) {
        Answer::Bytes(_) => 0,
        Answer::Refused(refusal) => refusal.number,
        Answer::Beyond(beyond) => panic!("{beyond:?}"),
    };
    assert_eq!(right, number, "{text}");
    if nexus::archive::LINKED {
        let given = nexus::read(text.as_bytes()).map_or_else(|refusal| refusal.number, |_| 0);
        assert_eq!(given, number, "{text}");
    }
}

#[test]
fn texts_and_blocks() {
    for (text, number) in TEXTS {
        says(text, *number);
    }
    for (commands, number) in DATA {
        says(&format!("#NEXUS BEGIN DATA; {commands} END;"), *number);
    }
    let data = "#NEXUS BEGIN DATA; DIMENSIONS NTAX=1 NCHAR=1; MATRIX a 0; END;";
    for (blocks, number) in BEHIND {
        says(&format!("{data} {blocks}"), *number);
    }
}

#[test]
fn formats_and_cells() {
    let head = "#NEXUS BEGIN DATA; DIMENSIONS NTAX=1 NCHAR=2;";
    for (options, cells, number) in FORMATS {
        says(
            &format!("{head} FORMAT {options}; MATRIX a {cells}; END;"),
            *number,
        );
    }
    for (command, number) in LABELS {
        says(&format!("{head} {command}; MATRIX a 01; END;"), *number);
    }
}

#[test]
fn types() {
    let head = "#NEXUS BEGIN DATA; DIMENSIONS NTAX=1 NCHAR=3;";
    for (commands, number) in TYPES {
        let block = format!("BEGIN ASSUMPTIONS; {commands} END;");
        says(&format!("{head} MATRIX a 010; END; {block}"), *number);
    }
    for (typeset, number) in [("", 29), ("TYPESET t = UNORD: ALL;", 0)] {
        let block = format!("BEGIN ASSUMPTIONS; OPTIONS DEFTYPE=ORD; {typeset} END;");
        let dna = "FORMAT DATATYPE=DNA; MATRIX a ACG; END;";
        says(&format!("{head} {dna} {block}"), number);
    }
}
