//! What the reader does where a port is likely to differ: labels, types and character lists.

mod common;

use common::{doc, expect, record, refusal, typed, types, values};

#[test]
fn label_commands() {
    let text = |commands: &str| doc("NTAX=1 NCHAR=2", commands, "a 01");
    let place = |commands: &str| refusal(&text(commands));
    assert_eq!(place("CHARLABELS a;"), (16, 4, 1));
    assert_eq!(place("CHARLABELS a,b;"), (16, 4, 1));
    assert_eq!(place("CHARLABELS a ,;"), (17, 4, 14));
    assert_eq!(place("CHARSTATELABELS 2 x; CHARLABELS a ,;"), (26, 4, 35));
    assert_eq!(place("CHARLABELS a ''; CHARSTATELABELS 1 b;"), (17, 4, 14));
    assert_eq!(place("STATELABELS;"), (26, 4, 1));
    assert_eq!(place("STATELABELS ,;"), (26, 4, 1));
    assert_eq!(place("STATELABELS 1 a,,;"), (26, 4, 1));
    assert_eq!(place("STATELABELS 3 a;"), (26, 4, 13));
    assert_eq!(place("STATELABELS 1 a / b;"), (17, 4, 17));
    assert_eq!(place("STATELABELS 1 a b c;"), (26, 4, 13));
    assert_eq!(place("CHARSTATELABELS 1 a, 1 '';"), (26, 4, 22));
    assert_eq!(place("CHARSTATELABELS 1 '' /;"), (17, 4, 19));
    assert_eq!(place("CHARSTATELABELS 1 a b;"), (26, 4, 21));
    assert_eq!(place("CHARSTATELABELS 1 /, 1 / '';"), (26, 4, 22));
    assert_eq!(place("CHARSTATELABELS 1 / '' c d;"), (17, 4, 21));
    assert_eq!(place("CHARSTATELABELS 1 / b c d;"), (26, 4, 17));
    let record = record(&text(
        "CHARSTATELABELS '+1', 02 _ /; STATELABELS \"1\" s s,;",
    ));
    assert_eq!(values(&record, "label"), ["", " "]);
    assert_eq!(values(&record, "states"), ["2", "0"]);
    assert_eq!(values(&record, "state"), ["s", "s"]);
}

#[test]
fn options_and_typesets() {
    let place = |commands: &str| refusal(&typed(commands));
    assert_eq!(types(""), "UUUUU");
    assert_eq!(types("OPTIONS DEFTYPE=ORD;"), "OOOOO");
    assert_eq!(types("TYPESET t=UNORD:2; OPTIONS DEFTYPE=ORD;"), "OUOOO");
    assert_eq!(types("TYPESET t(VECTOR)=ORD UNORD ord UNORD ORD;"), "OUOUO");
    assert_eq!(
        types("TYPESET * t (STANDARD) = ORD: 1, UNORD: 3, ORD: 5;"),
        "OUUUO"
    );
    assert_eq!(place("OPTIONS DEFTYPE ORD;"), (13, 9, 1));
    assert_eq!(place("OPTIONS DEFTYPE=X;"), (27, 9, 17));
    assert_eq!(place("OPTIONS DEFTYPE=ORD; OPTIONS;"), (13, 9, 22));
    assert_eq!(place("TYPESET;"), (27, 9, 1));
    assert_eq!(place("TYPESET * * t = ORD: 1;"), (17, 9, 11));
    assert_eq!(place("TYPESET '' = ORD: 1;"), (17, 9, 9));
    assert_eq!(place("TYPESET t (;"), (27, 9, 1));
    assert_eq!(place("TYPESET t ( X;"), (27, 9, 13));
    assert_eq!(place("TYPESET t (VECTOR;"), (27, 9, 12));
    assert_eq!(place("TYPESET t ORD: 1;"), (27, 9, 1));
    assert_eq!(place("TYPESET t =;"), (27, 9, 1));
    assert_eq!(place("TYPESET t (VECTOR) =;"), (27, 9, 1));
    assert_eq!(place("TYPESET t (VECTOR) = X;"), (16, 9, 1));
    assert_eq!(
        place("TYPESET t (VECTOR) = ORD ORD X ORD ORD;"),
        (27, 9, 30)
    );
    assert_eq!(place("TYPESET t = X: 1;"), (27, 9, 13));
    assert_eq!(place("TYPESET t = ORD 1;"), (27, 9, 13));
    assert_eq!(place("TYPESET t = ORD:;"), (28, 9, 13));
    assert_eq!(place("TYPESET t = ORD:,;"), (28, 9, 13));
    assert_eq!(place("TYPESET t = ORD:1,;"), (27, 9, 1));
    assert_eq!(place("TYPESET t = ORD:1,,UNORD:2;"), (27, 9, 19));
    assert_eq!(place("TYPESET t = ORD: 1 1 x;"), (28, 9, 22));
    assert_eq!(place("TYPESET t = ORD: 1 1, UNORD: x;"), (27, 9, 13));
    assert_eq!(place("TYPESET t = ORD: 1, UNORD: 1;"), (27, 9, 21));
}

#[test]
fn ordered_dna() {
    let dna = doc("NTAX=1 NCHAR=1", "FORMAT DATATYPE=DNA;", "a A");
    let with = |commands: &str| format!("{dna}BEGIN ASSUMPTIONS; {commands} END;");
    expect(&with("OPTIONS DEFTYPE=ORD;"), (29, 1, 1));
    expect(
        &format!("{} BEGIN X;", with("OPTIONS DEFTYPE=ORD;")),
        (12, 8, 52),
    );
    let unordered = with("OPTIONS DEFTYPE=ORD; TYPESET t=UNORD:1;");
    assert_eq!(values(&record(&unordered), "order"), ["UNORD"]);
}

#[test]
fn character_lists() {
    let ordered = |list: &str| types(&format!("TYPESET t = ORD: {list};"));
    for (list, expected) in [
        ("1 3", "OUOUU"),
        ("2-4", "UOOOU"),
        ("2 - 4", "UOOOU"),
        ("2- 4", "UOOOU"),
        ("2-[x]4", "UOOOU"),
        ("2 '-' 4", "UOOOU"),
        ("2 \"-\" 4", "UOOOU"),
        (".", "UUUUO"),
        ("3-.", "UUOOO"),
        (".-5", "UUUUO"),
        ("ALL", "OOOOO"),
        ("ALL\\2", "OUOUO"),
        ("2-5\\2", "UOUOU"),
        ("2-5\\'+3'", "UOUUO"),
        ("1-5\\18446744073709551615", "OUUUU"),
        ("2\\2 3", "UOOUU"),
        ("001-02", "OOUUU"),
    ] {
        assert_eq!(ordered(list), expected, "{list}");
    }
    // The list begins in column 18.
    for (list, column) in [
        ("'2-4'", 18),
        ("'2'", 18),
        ("ALL-3", 18),
        ("1-ALL", 18),
        ("ALL - 3", 18),
        ("ALL -", 18),
        ("..", 18),
        ("1.", 18),
        ("+1", 18),
        ("6", 18),
        ("0", 18),
        ("3-1", 18),
        ("3-1\\0", 18),
        ("2 -", 18),
        ("1--3", 18),
        ("1-2-4", 18),
        ("-2", 18),
        ("1 - x", 22),
        ("1-3\\", 18),
        ("1-3\\0", 22),
        ("1-3\\.", 22),
        ("1-3\\2-3", 22),
        ("1-3\\2\\2", 23),
        ("1 - '3'", 22),
    ] {
        expect(
            &typed(&format!("TYPESET t = ORD: {list};")),
            (28, 9, column),
        );
    }
}
