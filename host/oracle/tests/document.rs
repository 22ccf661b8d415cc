//! The worked example of document 01 and its cases at the edges.

mod common;

use common::{answer, cells, data, record, refusal, refused, values};
use inputs::example::{FORM, RECORD, TEXT as EXAMPLE};
use oracle::answer::{Answer, ENOUGH, lookup, read, write};

#[test]
fn the_example_has_its_record_and_its_form() {
    assert_eq!(record(EXAMPLE), RECORD);
    let form = write(RECORD.as_bytes(), ENOUGH);
    assert_eq!(form, Answer::Bytes(FORM.into()));
    assert_eq!(record(FORM), RECORD);
}

#[test]
fn a_buffer_of_the_length_is_enough_and_one_byte_less_is_30() {
    let length = RECORD.len() as u64;
    let text = EXAMPLE.as_bytes();
    assert_eq!(read(text, ENOUGH, length), Answer::Bytes(RECORD.into()));
    assert_eq!(read(text, ENOUGH, length - 1), refused(30, 0, 0));
    let length = FORM.len() as u64;
    let record = RECORD.as_bytes();
    assert_eq!(write(record, length), Answer::Bytes(FORM.into()));
    assert_eq!(write(record, length - 1), refused(30, 0, 0));
}

#[test]
fn the_lookup_gives_the_stretch_after_cells() {
    let ask = |name: &[u8]| String::from_utf8(lookup(name, RECORD.as_bytes())).expect("lines");
    let start = RECORD.find("cells=0").expect("a row") + "cells=".len();
    assert_eq!(ask(b"A B"), format!("refused=0\nstart={start}\nlength=8\n"));
    let start = RECORD.find("cells=1").expect("a row") + "cells=".len();
    assert_eq!(ask(b"c"), format!("refused=0\nstart={start}\nlength=6\n"));
    for name in ["a_b", "", "d", "'C'", "C ", "a"] {
        assert_eq!(ask(name.as_bytes()), "refused=33\nstart=0\nlength=0\n");
    }
    assert_eq!(ask(b"C\xff"), "refused=33\nstart=0\nlength=0\n");
    let cut = &RECORD.as_bytes()[..RECORD.len() - 1];
    assert_eq!(lookup(b"C", cut), b"refused=31\nstart=0\nlength=0\n");
    assert_eq!(lookup(b"none", cut), b"refused=31\nstart=0\nlength=0\n");
}

#[test]
fn the_first_refusals_come_in_order() {
    let long = vec![0xff; 1_048_577];
    assert_eq!(read(&long, 0, 0), refused(1, 0, 0));
    let bad = &long[..10];
    assert_eq!(read(bad, 103, 0), refused(2, 0, 0));
    assert_eq!(read(bad, 104, 0), refused(3, 0, 0));
    assert_eq!(read(b"'", 67, 0), refused(2, 0, 0));
    assert_eq!(read(b"'", 68, 0), refused(4, 1, 1));
    assert_eq!(read(b"X[", ENOUGH, 0), refused(5, 1, 2));
    assert_eq!(read(b"X", ENOUGH, 0), refused(6, 1, 1));
    let blanks = vec![b' '; 1_048_576];
    assert_eq!(read(&blanks, 4 * 1_048_576 + 63, 0), refused(2, 0, 0));
    assert_eq!(read(&blanks, 4 * 1_048_576 + 64, 0), refused(6, 1, 1));
}

#[test]
fn the_starred_cases() {
    assert_eq!(refusal(""), (6, 1, 1));
    assert_eq!(refusal("\u{feff}X"), (6, 1, 2));
    let names = |rows: &str| {
        let text = data(&format!("DIMENSIONS NTAX=1 NCHAR=1; MATRIX {rows};"));
        values(&record(&text), "name")
    };
    assert_eq!(names("ab[c]d 0"), ["abd"]);
    assert_eq!(names("'a''b' 0"), ["a'b"]);
    assert_eq!(names("_ 0"), [" "]);
    assert_eq!(cells(1, 1, "", "a {0}"), ["u0"]);
    let row = |nchar: usize, rows: &str| {
        data(&format!("DIMENSIONS NTAX=1 NCHAR={nchar}; MATRIX {rows};"))
    };
    assert_eq!(refusal(&row(1, "a {}")).0, 23);
    assert_eq!(refusal(&row(3, "a 0101")).0, 24);
    assert_eq!(refusal(&row(3, "a 010 1")).0, 16);
    assert_eq!(refusal(&data("DIMENSIONS NTAX=0;")).0, 15);
    assert_eq!(refusal(&row(1, "' ' 0")).0, 17);
    let symbols = |more: &str| {
        data(&format!(
            "DIMENSIONS NTAX=1 NCHAR=2; FORMAT SYMBOLS=\"aA\" {more}; MATRIX t Aa;"
        ))
    };
    assert_eq!(refusal(&symbols("")).0, 21);
    assert_eq!(values(&record(&symbols("RESPECTCASE")), "cells"), ["1 0"]);
    assert_eq!(cells(1, 1, "FORMAT DATATYPE=DNA;", "a N"), ["u0.1.2.3"]);
    assert_eq!(cells(1, 1, "FORMAT DATATYPE=DNA MISSING=N;", "a N"), ["m"]);
    let types = |list: &str| {
        let matrix = data("DIMENSIONS NTAX=1 NCHAR=3; MATRIX a 010;");
        format!("{matrix} BEGIN ASSUMPTIONS; TYPESET * t = {list}; END;")
    };
    assert_eq!(
        values(&record(&types("ORD: 1-3\\2")), "order"),
        ["ORD", "UNORD", "ORD"]
    );
    assert_eq!(refusal(&types("ORD: 1,")).0, 27);
}

#[test]
fn a_last_comma_in_charstatelabels_is_taken() {
    let text = data("DIMENSIONS NTAX=1 NCHAR=1; CHARSTATELABELS 1 a / b c,; MATRIX t 0;");
    let record = record(&text);
    assert_eq!(values(&record, "label"), ["a"]);
    assert_eq!(values(&record, "state"), ["b", "c"]);
}

#[test]
fn what_the_reader_cannot_bear_is_not_given_to_it() {
    let row = "0".repeat(46_341);
    let all = "ALL ".repeat(11_586);
    let text = format!(
        "#NEXUS BEGIN DATA; DIMENSIONS NTAX=1 NCHAR=46341; MATRIX a {row}; END; \
         BEGIN ASSUMPTIONS; TYPESET * t = ORD: {all}; END;"
    );
    assert_eq!(answer(&text).into_bytes(), b"beyond=memory\n");
    let names: String = (0..100_000).map(|i| format!("{i:x} ")).collect();
    let text = format!("#NEXUS BEGIN TAXA; DIMENSIONS NTAX=100000; TAXLABELS {names};");
    assert_eq!(answer(&text).into_bytes(), b"beyond=time\n");
}

#[test]
fn long_lists_that_the_reader_can_bear_are_read() {
    let count = 20_000;
    let row = "0".repeat(count);
    let list: String = (1..=count).map(|i| format!("{i} ")).collect();
    let matrix =
        format!("#NEXUS BEGIN DATA; DIMENSIONS NTAX=1 NCHAR={count}; MATRIX a {row}; END;");
    for list in [list.as_str(), "1-.", "ALL", "1-20000\\3 2-.\\3 3-.\\3"] {
        let text = format!("{matrix} BEGIN ASSUMPTIONS; TYPESET * t = ORD: {list}; END;");
        let orders = values(&record(&text), "order");
        assert_eq!(orders, vec!["ORD"; count]);
    }
}

#[test]
fn a_form_above_the_limit_is_32_and_one_at_it_is_not() {
    // A record of one taxon with so many cells.
    let record = |characters: usize, cell: &str| {
        let cells = vec![cell; characters].join(" ");
        let characters: String = (1..=characters)
            .map(|c| format!("character={c}\nlabel=\norder=UNORD\nstates=0\n"))
            .collect();
        let count = cells.split(' ').count();
        format!(
            "datatype=DNA\ntaxa=1\ncharacters={count}\nsymbols=ACGT\nname=a\ncells={cells}\n{characters}"
        )
    };
    let length = |cells: usize| match write(record(cells, "0").as_bytes(), ENOUGH) {
        Answer::Bytes(form) => form.len(),
        other => panic!("{other:?}"),
    };
    let rest = length(1_000_000) - 1_000_000;
    let most = 1_048_576 - rest;
    assert_eq!(length(most), 1_048_576);
    assert_eq!(
        write(record(most + 1, "0").as_bytes(), ENOUGH),
        refused(32, 0, 0)
    );
    assert_eq!(
        write(record(most + 1, "0").as_bytes(), 0),
        refused(32, 0, 0)
    );
    assert_eq!(
        write(record(200_000, "u0.1.2.3").as_bytes(), ENOUGH),
        refused(32, 0, 0)
    );
    assert_eq!(
        write(record(most, "0").as_bytes(), 1_048_575),
        refused(30, 0, 0)
    );
}
