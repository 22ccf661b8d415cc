//! The plain calls.

use inputs::example::{FORM, RECORD, TEXT};
use nexus::{
    Reader, Record, Refusal, TEXT_LIMIT, lookup, read, read_into, work_needed, write_into,
};

fn refusal(number: u32, line: usize, column: usize) -> Refusal {
    Refusal {
        number,
        line,
        column,
    }
}

#[test]
#[cfg_attr(not(archive), ignore = "no archive; tools/test-calls makes it")]
fn the_example_is_read() {
    let record = read(TEXT.as_bytes()).expect("a record");
    assert_eq!(record.as_bytes(), RECORD.as_bytes());
    assert_eq!(record.into_bytes(), RECORD.as_bytes());
}

#[test]
#[cfg_attr(not(archive), ignore = "no archive; tools/test-calls makes it")]
fn memory_may_be_lent() {
    let text = TEXT.as_bytes();
    let mut work = vec![7; work_needed(text)];
    let mut buffer = vec![b'#'; RECORD.len() + 3];
    assert_eq!(read_into(text, &mut work, &mut buffer), Ok(RECORD.len()));
    assert_eq!(buffer, [RECORD.as_bytes(), b"###"].concat());
    let full = &mut buffer[..RECORD.len()];
    assert_eq!(read_into(text, &mut work, full), Ok(RECORD.len()));
    let short = &mut buffer[..RECORD.len() - 1];
    assert_eq!(read_into(text, &mut work, short), Err(refusal(30, 0, 0)));
    let short = &mut work[1..];
    assert_eq!(read_into(text, short, &mut buffer), Err(refusal(2, 0, 0)));
}

#[test]
#[cfg_attr(not(archive), ignore = "no archive; tools/test-calls makes it")]
fn a_refusal_has_its_place() {
    let text = TEXT.replace('?', "X");
    assert_eq!(read(text.as_bytes()), Err(refusal(22, 5, 10)));
    assert_eq!(read(b""), Err(refusal(6, 1, 1)));
    assert_eq!(read(b"\xff"), Err(refusal(3, 0, 0)));
    let long = vec![b' '; TEXT_LIMIT + 1];
    assert_eq!(read(&long[1..]), Err(refusal(6, 1, 1)));
    assert_eq!(read(&long), Err(refusal(1, 0, 0)));
}

/// The longest records for their texts: one row of DNA with nothing but `N`.
#[test]
#[cfg_attr(not(archive), ignore = "no archive; tools/test-calls makes it")]
fn a_record_may_be_much_longer_than_its_text() {
    let rest =
        "#NEXUS BEGIN DATA;DIMENSIONS NTAX=1 NCHAR=1000000;FORMAT DATATYPE=DNA;MATRIX a ;END;";
    for count in [1, 10, 1_000, TEXT_LIMIT - rest.len()] {
        let cells = "N".repeat(count);
        let text = format!(
            "#NEXUS BEGIN DATA;DIMENSIONS NTAX=1 NCHAR={count};FORMAT DATATYPE=DNA;MATRIX a {cells};END;"
        );
        let record = read(text.as_bytes()).expect("a record").into_bytes();
        let cells = vec!["u0.1.2.3"; count].join(" ");
        let characters: String = (1..=count)
            .map(|c| format!("character={c}\nlabel=\norder=UNORD\nstates=0\n"))
            .collect();
        let expected = format!(
            "datatype=DNA\ntaxa=1\ncharacters={count}\nsymbols=ACGT\nname=a\ncells={cells}\n{characters}"
        );
        assert!(record == expected.as_bytes(), "{count} characters");
    }
}

fn record(lines: &str) -> Record {
    Record::from_bytes(lines.as_bytes().to_vec()).expect("a record")
}

#[test]
#[cfg_attr(not(archive), ignore = "no archive; tools/test-calls makes it")]
fn the_example_is_written() {
    let form = record(RECORD).write().expect("a form");
    assert_eq!(form, FORM.as_bytes());
    assert_eq!(read(&form), Ok(record(RECORD)));
    let mut buffer = vec![b'#'; FORM.len() + 3];
    let written = write_into(RECORD.as_bytes(), &mut buffer);
    assert_eq!(written, Ok(FORM.len()));
    assert_eq!(buffer, [FORM.as_bytes(), b"###"].concat());
    let short = &mut buffer[..FORM.len() - 1];
    let written = write_into(RECORD.as_bytes(), short);
    assert_eq!(written, Err(refusal(30, 0, 0)));
}

#[test]
#[cfg_attr(not(archive), ignore = "no archive; tools/test-calls makes it")]
fn cells_are_found_by_name() {
    let example = record(RECORD);
    assert_eq!(example.cells(b"a b"), Ok(&b"0 u0.1 m"[..]));
    assert_eq!(example.cells(b"A B"), Ok(&b"0 u0.1 m"[..]));
    assert_eq!(example.cells(b"c"), Ok(&b"1 p1 0"[..]));
    for name in [&b"a_b"[..], b"", b"a", b"a b ", b"'C'", b"\xff"] {
        assert_eq!(example.cells(name), Err(refusal(33, 0, 0)), "{name:?}");
    }
    // The cells are those of the record, and no copy.
    let bytes = example.as_bytes();
    let cells = lookup(bytes, b"C").expect("cells");
    let start = RECORD.find("1 p1 0").expect("the cells of C");
    assert_eq!(cells.as_ptr(), bytes[start..].as_ptr());
    // A name may be a part of the record.
    let name = RECORD.find("a b").expect("the first name");
    assert_eq!(lookup(bytes, &bytes[name..name + 3]), Ok(&b"0 u0.1 m"[..]));
}

#[test]
#[cfg_attr(not(archive), ignore = "no archive; tools/test-calls makes it")]
fn other_bytes_are_no_record() {
    let not = Err(refusal(31, 0, 0));
    for bytes in [
        String::new(),
        TEXT.to_string(),
        RECORD.replace("taxa=2", "taxa=02"),
        RECORD.replace("name=C", "name=A B"),
        RECORD.trim_end().to_string(),
    ] {
        let bytes = bytes.into_bytes();
        assert_eq!(write_into(&bytes, &mut []).map(|_| ()), not);
        assert_eq!(lookup(&bytes, b"a b").map(|_| ()), not);
        assert_eq!(Record::from_bytes(bytes).map(|_| ()), not);
    }
}

/// The longest forms for their records: names of nothing but quotes, and sets of one state.
#[test]
#[cfg_attr(not(archive), ignore = "no archive; tools/test-calls makes it")]
fn a_form_may_be_longer_than_its_record() {
    for quotes in [1, 10, 1_000, 500_000] {
        let name = "'".repeat(quotes);
        let lines = RECORD.replace("name=C", &format!("name={name}"));
        let form = record(&lines).write().expect("a form");
        let doubled = FORM.replace("'C'", &format!("'{name}{name}'"));
        assert!(form == doubled.as_bytes(), "{quotes} quotes");
    }
    let cells = RECORD.replace("1 p1 0", "u1 p1 u0");
    let form = FORM.replace("1(1)0", "{1}(1){0}");
    assert_eq!(record(&cells).write(), Ok(form.into_bytes()));
    let name = "'".repeat(TEXT_LIMIT / 2);
    let long = record(&RECORD.replace("name=C", &format!("name={name}")));
    assert_eq!(long.write(), Err(refusal(32, 0, 0)));
}

#[test]
#[cfg_attr(not(archive), ignore = "no archive; tools/test-calls makes it")]
fn a_reader_reads_one_text_after_another() {
    // An `N` is a set of four bases, so that the record is longer than most; and nothing says how
    // many characters there are where many names are declared first.
    let unknown = String::from_utf8(inputs::rows(10, 20_000)).expect("ASCII");
    let unknown = unknown.replace('A', "N").into_bytes();
    let declared = String::from_utf8(inputs::names(20_000, true)).expect("ASCII");
    let texts = [
        TEXT.as_bytes().to_vec(),
        inputs::row(TEXT_LIMIT),
        vec![b' '; TEXT_LIMIT + 1],
        unknown,
        b"#NEXUS".to_vec(),
        declared.replace("NCHAR=5;", "NCHAR=99999999;").into_bytes(),
        inputs::standard(100, 5_000, true),
        TEXT.as_bytes().to_vec(),
    ];
    let mut reader = Reader::new();
    for text in texts {
        let (mut work, mut buffer) = (vec![0; work_needed(&text)], vec![0; 64 * text.len()]);
        let lent = read_into(&text, &mut work, &mut buffer);
        let lent = lent.map(|length| &buffer[..length]);
        let given = reader.read(&text);
        assert!(given.map(|record| record.as_bytes()) == lent);
        let record = read(&text);
        assert!(record.as_ref().map(Record::as_bytes) == lent.as_ref().map(|record| *record));
    }
}
