//! What the reader does where a port is likely to differ: rows, sequential and interleaved, and
//! state sets.

mod common;

use common::{bad_row, doc, expect, record, refusal, row, values};

#[test]
fn sequential_rows() {
    assert_eq!(
        values(
            &record(&doc("NTAX=3 NCHAR=3", "", "a 010\n1 0 1 1 b\n0\n1[x]0")),
            "name"
        ),
        ["a", "1", "b"]
    );
    bad_row("", 3, "010 1", (16, 6, 7));
    bad_row("", 1, "0012", (22, 6, 3));
    bad_row("", 3, "0101", (24, 6, 3));
    bad_row("", 3, "0 1 01", (24, 6, 7));
    bad_row("", 3, "01", (24, 6, 1));
    bad_row("", 1, "'0'", (22, 6, 3));
    bad_row("", 1, ",", (22, 6, 3));
    expect(&doc("NTAX=2 NCHAR=1", "", "a 0"), (16, 5, 1));
    expect(&doc("NTAX=1 NCHAR=1", "", ""), (16, 5, 1));
    assert_eq!(row("FORMAT SYMBOLS=\"0+\";", 3, "0+0"), "0 1 0");
}

#[test]
fn state_sets() {
    assert_eq!(row("", 3, "{0}(1){1 0\n0}"), "u0 p1 u0.1");
    for (cells, refused) in [
        ("{2}", (22, 6, 4)),
        ("{0,1}", (22, 6, 5)),
        ("{0(1)}", (22, 6, 5)),
        ("{01)", (22, 6, 6)),
        ("{'0'}", (22, 6, 4)),
        ("{?}", (23, 6, 4)),
        ("{0 ?}", (23, 6, 6)),
        ("{?2}", (22, 6, 4)),
        ("{? 2}", (23, 6, 4)),
        ("{}", (23, 6, 3)),
        ("{ [x] }", (23, 6, 3)),
        ("{0", (23, 6, 3)),
    ] {
        bad_row("", 1, cells, refused);
    }
    bad_row("", 2, "0}", (22, 6, 4));
    assert_eq!(
        row("FORMAT DATATYPE=DNA;", 4, "R{ag}(t)n"),
        "u0.2 u0.2 p3 u0.1.2.3"
    );
    bad_row("FORMAT DATATYPE=DNA;", 1, "{R}", (23, 6, 4));
    bad_row("FORMAT DATATYPE=DNA;", 1, "{-}", (23, 6, 4));
}

#[test]
fn interleaved_rows() {
    let text = |ntax: usize, nchar: usize, rows: &str| {
        doc(
            &format!("NTAX={ntax} NCHAR={nchar}"),
            "FORMAT INTERLEAVE;",
            rows,
        )
    };
    let place = |ntax: usize, nchar: usize, rows: &str| refusal(&text(ntax, nchar, rows));
    let cells =
        |ntax: usize, nchar: usize, rows: &str| values(&record(&text(ntax, nchar, rows)), "cells");
    assert_eq!(
        cells(2, 3, "a 01\nb 10\n\n [x] \nA 1\nB 0\n"),
        ["0 1 1", "1 0 0"]
    );
    assert_eq!(cells(2, 2, "a 0[\n]1\n'b\n' 10"), ["0 1", "1 0"]);
    assert_eq!(values(&record(&text(1, 1, "'b\n' 0")), "name"), ["b\\0"]);
    let one_line = text(1, 1, "a 0").replace("MATRIX\n", "MATRIX ");
    assert_eq!(values(&record(&one_line), "cells"), ["0"]);
    assert_eq!(place(2, 1, "a 0"), (16, 6, 1));
    assert_eq!(place(2, 1, "= 2"), (16, 6, 1));
    assert_eq!(place(2, 2, "a 0\nb 0\n= 2"), (16, 8, 1));
    assert_eq!(place(2, 2, "a 0\na 0"), (18, 7, 1));
    assert_eq!(place(2, 2, "a 0\n= 0"), (17, 7, 1));
    assert_eq!(place(1, 2, "a 0\nb 2"), (24, 7, 1));
    assert_eq!(place(1, 2, "a\n"), (24, 6, 1));
    assert_eq!(place(2, 2, "a 01\nb 012"), (22, 7, 3));
    assert_eq!(place(2, 2, "a 01\nb 0"), (24, 7, 1));
    assert_eq!(place(1, 2, "a 010"), (24, 6, 1));
    assert_eq!(place(1, 2, "a 0"), (16, 5, 1));
    assert_eq!(place(1, 2, ""), (16, 5, 1));
    assert_eq!(place(1, 1, "a {0\n}"), (23, 6, 3));
    let off = text(1, 2, "a 0\n1").replace("INTERLEAVE", "INTERLEAVE=NO");
    assert_eq!(values(&record(&off), "cells"), ["0 1"]);
}
