//! What is a record and what is none, byte by byte; the order of refusals; names to be found; and
//! records at the limits.

use calls::{Checker, Met, Question, explained};
use inputs::taxa::{self, Declared};
use inputs::{MEGABYTE, example};
use nexus::{Refusal, lookup, write_into};
use oracle::answer::{self, Answer, ENOUGH};
use oracle::form::form;
use oracle::record::{escape, unspell, valid_symbol};

/// A record that has something of everything: escapes, sets, gaps, labels, states and types.
const FULL: &str = "datatype=STANDARD\ntaxa=3\ncharacters=3\nsymbols=02\n\
    name=a B\ncells=0 u0.1 g\nname=\\0x\\1\ncells=1 p1 m\nname=é'\ncells=m u1 0\n\
    character=1\nlabel=it's \\1\norder=ORD\nstates=2\nstate= \nstate=é\n\
    character=2\nlabel=\norder=UNORD\nstates=0\n\
    character=3\nlabel=\norder=UNORD\nstates=1\nstate=\\0 \n";

/// Writes with a buffer of so many bytes.
fn lent(record: &[u8], room: usize) -> Result<Vec<u8>, u32> {
    let mut buffer = vec![0; room];
    match write_into(record, &mut buffer) {
        Ok(length) => Ok(buffer[..length].to_vec()),
        Err(Refusal {
            number,
            line: 0,
            column: 0,
        }) => Err(number),
        Err(refusal) => panic!("{refusal:?} has a place"),
    }
}

/// All calls for a question; a smallest example where one differs.
#[track_caller]
fn checked(checker: &mut Checker, question: Question) -> Met {
    let met = question.check(checker);
    met.unwrap_or_else(|difference| panic!("{}", explained(&question, &difference)))
}

#[track_caller]
fn written(checker: &mut Checker, record: &[u8]) -> Met {
    checked(checker, Question::Record(record.to_vec()))
}

#[track_caller]
fn looked_up(checker: &mut Checker, name: &[u8], record: &[u8]) -> Met {
    let (name, record) = (name.to_vec(), record.to_vec());
    checked(checker, Question::Lookup { name, record })
}

/// For records that take long.
#[track_caller]
fn checked_long(what: &str, record: &[u8]) -> Met {
    let met = Checker::default().check_long_record(record);
    met.unwrap_or_else(|difference| panic!("{what}, {} bytes:\n{difference}", record.len()))
}

fn record_of(text: &[u8]) -> Vec<u8> {
    match answer::read(text, ENOUGH, ENOUGH) {
        Answer::Bytes(record) => record,
        other => panic!("{other:?}"),
    }
}

/// The record with another line in place of the one that begins so.
fn with_line(record: &str, from: &str, line: &[u8]) -> Vec<u8> {
    let start = record.find(from).expect("the line");
    let end = start + record[start..].find('\n').expect("its end");
    let record = record.as_bytes();
    [&record[..start], line, &record[end..]].concat()
}

/// All strings of at most so many of these bytes.
fn strings(bytes: &[u8], most: u32) -> Vec<Vec<u8>> {
    let mut strings: Vec<Vec<u8>> = vec![Vec::new()];
    let mut from = 0;
    for _ in 0..most {
        let to = strings.len();
        for at in from..to {
            for byte in bytes {
                strings.push([&strings[at], &[*byte][..]].concat());
            }
        }
        from = to;
    }
    strings
}

#[test]
#[cfg_attr(not(archive), ignore = "no archive; tools/test-calls makes it")]
fn refusals_come_in_order() {
    let (record, form) = (example::RECORD.as_bytes(), example::FORM.as_bytes());
    for room in 0..form.len() + 3 {
        let right = match room < form.len() {
            true => Err(30),
            false => Ok(form.to_vec()),
        };
        assert_eq!(lent(record, room), right);
        // A fault at the very end goes before 30.
        assert_eq!(lent(&record[..record.len() - 1], room), Err(31));
        assert_eq!(lent(&[record, b"\n"].concat(), room), Err(31));
    }
    let name = "x".repeat(MEGABYTE);
    let long = example::RECORD.replace("name=C", &format!("name={name}"));
    let broken = long.replace("character=3", "character=4");
    for room in [0, 1, MEGABYTE, 2 * MEGABYTE] {
        assert_eq!(lent(long.as_bytes(), room), Err(32));
        assert_eq!(lent(broken.as_bytes(), room), Err(31));
    }
    for name in [&b"a b"[..], b"none", b""] {
        let refused = lookup(broken.as_bytes(), name).expect_err("no record");
        assert_eq!(refused.number, 31);
    }
}

/// Each byte of a record left out, written twice, and in turn every other byte.
#[test]
#[cfg_attr(not(archive), ignore = "no archive; tools/test-calls makes it")]
fn every_byte_of_a_record() {
    let record = FULL.as_bytes();
    let mut checker = Checker::default();
    assert_eq!(written(&mut checker, record), Met::Taken);
    let mut taken = 0;
    for at in 0..record.len() {
        let (before, behind) = (&record[..at], &record[at + 1..]);
        let mut records: Vec<Vec<u8>> = (0..=255)
            .map(|byte| [before, &[byte], behind].concat())
            .collect();
        records.push([before, behind].concat());
        records.push([before, &record[at..=at], &record[at..=at], behind].concat());
        records.push(before.to_vec());
        for record in records {
            let met = written(&mut checker, &record);
            taken += u32::from(met == Met::Taken);
            let found = looked_up(&mut checker, b"A b", &record);
            assert_eq!(met == Met::Refused(31), found == Met::Refused(31));
        }
    }
    assert!((2_000..4_000).contains(&taken), "{taken} are written");
}

/// Every name of up to three bytes from a list that has blanks of each length, newlines, escapes,
/// quotes, and the ends of the ranges of UTF-8: of a taxon, of a character, of a state, and asked
/// for.
#[test]
#[cfg_attr(not(archive), ignore = "no archive; tools/test-calls makes it")]
fn all_short_names() {
    let bytes = b"aA01\\_ '\n\r\t\x0c\x1c\x7f\xc2\x85\xa0\xe1\x9a\x80\xe2\xa8\xe3\xef\xbb\xbf\xed\x9f\xf0\x90\xf4\x8f\xff";
    let mut checker = Checker::default();
    let mut taken = [0; 4];
    for name in strings(bytes, 3) {
        let label = [b"label=", name.as_slice()].concat();
        let state = [b"states=1\nstate=", name.as_slice()].concat();
        let records = [
            with_line(FULL, "name=a B", &[b"name=", name.as_slice()].concat()),
            with_line(FULL, "label=\n", &label),
            with_line(FULL, "states=0", &state),
        ];
        for (kind, record) in records.iter().enumerate() {
            let met = checker.check_long_record(record);
            let met = met.unwrap_or_else(|difference| {
                panic!(
                    "{}",
                    explained(&Question::Record(record.clone()), &difference)
                )
            });
            taken[kind] += u32::from(met == Met::Taken);
        }
        // Of a record that has the name, and of one that has other names.
        for record in [&records[0], FULL.as_bytes()] {
            let met = looked_up(&mut checker, &name, record);
            taken[3] += u32::from(met == Met::Taken);
        }
    }
    assert!(taken.iter().all(|count| *count > 1_000), "{taken:?}");
}

/// Every row of up to six bytes that rows have, in a record of one character and in one of two; and
/// every number of up to four bytes in place of each count.
#[test]
#[cfg_attr(not(archive), ignore = "no archive; tools/test-calls makes it")]
fn all_short_values() {
    let one = example::RECORD
        .replace("characters=3", "characters=1")
        .replace("a b\ncells=0 u0.1 m", "a\ncells=0")
        .replace("1 p1 0", "g");
    let start = one.find("character=2").expect("a second character");
    let one = &one[..start];
    let two = one
        .replace("characters=1", "characters=2")
        .replace("cells=0", "cells=0 0")
        .replace("cells=g", "cells=g g");
    let two = format!("{two}character=2\nlabel=\norder=UNORD\nstates=0\n");
    let mut checker = Checker::default();
    let mut taken = 0;
    for cells in strings(b"012.um ", 5) {
        for record in [one, &two] {
            let line = [b"cells=", cells.as_slice()].concat();
            let record = with_line(record, "cells=0", &line);
            taken += u32::from(written(&mut checker, &record) == Met::Taken);
        }
    }
    assert!(taken > 30, "{taken} are written");
    for line in [
        "datatype=",
        "taxa=",
        "characters=",
        "symbols=",
        "character=1",
        "order=",
        "states=",
    ] {
        let key = &line[..=line.find('=').expect("a key")];
        for value in strings(b"0123 +A\x00", 4) {
            let value = [key.as_bytes(), value.as_slice()].concat();
            written(&mut checker, &with_line(FULL, line, &value));
        }
    }
}

/// Every byte as a symbol, and as many symbols as can be, with and without a gap.
#[test]
#[cfg_attr(not(archive), ignore = "no archive; tools/test-calls makes it")]
fn symbols() {
    let with = |symbols: &[u8], record: &str| {
        with_line(record, "symbols=", &[b"symbols=", symbols].concat())
    };
    let plain = FULL.replace(" g\n", " 1\n");
    let mut checker = Checker::default();
    for byte in 0..=255 {
        for symbols in [
            vec![b'0', byte],
            vec![byte, b'z'],
            vec![b'!', b'#', byte, b'$'],
        ] {
            let own = symbols.iter().filter(|&&own| own == byte).count();
            let met = written(&mut checker, &with(&symbols, FULL));
            assert_eq!(met == Met::Taken, valid_symbol(byte) && own == 1, "{byte}");
        }
    }
    let valid: Vec<u8> = (0..=255).filter(|&byte| valid_symbol(byte)).collect();
    assert_eq!(valid.len(), 74);
    for left in 0..74 {
        // All but one, so that each in turn is the one that is free.
        let many = [&valid[..left], &valid[left + 1..]].concat();
        assert_eq!(written(&mut checker, &with(&many, &plain)), Met::Taken);
        let met = written(&mut checker, &with(&many, FULL));
        assert_eq!(met, Met::Refused(31), "73 symbols and a gap");
        let met = written(&mut checker, &with(&many[1..], FULL));
        assert_eq!(met, Met::Taken, "72 symbols and a gap");
        let few = &valid[left..];
        let met = written(&mut checker, &with(few, &plain));
        assert_eq!(met == Met::Taken, (2..74).contains(&few.len()));
    }
    for count in 0..4 {
        let few = &valid[..count];
        let met = written(&mut checker, &with(few, &plain));
        assert_eq!(met == Met::Taken, count > 1);
    }
}

/// As many state labels as symbols, and one more.
#[test]
#[cfg_attr(not(archive), ignore = "no archive; tools/test-calls makes it")]
fn state_labels() {
    let mut checker = Checker::default();
    for (symbols, most) in [("symbols=02", 2), ("symbols=0123456789AB", 12)] {
        for count in 0..15 {
            let lines = format!("states={count}{}", "\nstate=x".repeat(count));
            let record = FULL.replace("symbols=02", symbols);
            let record = with_line(&record, "states=0", lines.as_bytes());
            let met = written(&mut checker, &record);
            assert_eq!(met == Met::Taken, count <= most, "{count}");
        }
    }
}

#[test]
#[cfg_attr(not(archive), ignore = "no archive; tools/test-calls makes it")]
fn dna() {
    let record = FULL
        .replace("STANDARD", "DNA")
        .replace("symbols=02", "symbols=ACGT")
        .replace("order=ORD", "order=UNORD");
    let mut checker = Checker::default();
    let mut with = |from: &str, to: &str| {
        let changed = record.replace(from, to);
        assert!(from == to || changed != record, "{from}");
        written(&mut checker, changed.as_bytes()) == Met::Taken
    };
    assert!(with("", ""));
    for cells in ["3 u0.1.2.3 g", "u0 p3 p0.3", "m m m", "g g g"] {
        assert!(with("0 u0.1 g", cells), "{cells}");
    }
    assert!(!with("0 u0.1 g", "0 u0.1 4"));
    assert!(!with("order=UNORD\nstates=0", "order=ORD\nstates=0"));
    for symbols in ["", "A", "ACG", "ACGTA", "acgt", "TGCA", "02"] {
        assert!(!with("=ACGT", &format!("={symbols}")), "{symbols}");
    }
    let states = |count: usize| format!("states={count}{}", "\nstate=x".repeat(count));
    assert!(with("states=0", &states(4)));
    assert!(!with("states=0", &states(5)));
}

#[test]
#[cfg_attr(not(archive), ignore = "no archive; tools/test-calls makes it")]
fn names_that_are_found() {
    let mut checker = Checker::default();
    let mut look = |name: &[u8]| looked_up(&mut checker, name, FULL.as_bytes());
    for name in ["a B", "A b", "\nx\\", "\nX\\", "é'"] {
        assert_eq!(look(name.as_bytes()), Met::Taken, "{name:?}");
    }
    for name in [
        &b""[..],
        b"a",
        b"a B ",
        b"a_B",
        b"'a B'",
        b"name=a B",
        b"a B\ncells=0 u0.1 g",
        b"\\0x\\1",
        b"\nx",
        b"x\\",
        b"\xc3\x89'",
        b"\xc3",
        b"\xff",
        b"it's \\",
        &[b'a'; 100_000],
    ] {
        assert_eq!(look(name), Met::Refused(33), "{name:?}");
    }
    // A name is found in its own row, wherever it stands, and may be a part of the record.
    let record = record_of(&inputs::names(300, false));
    let reading = unspell(&record).expect("a record");
    let mut checker = Checker::default();
    for name in reading.taxa() {
        let met = looked_up(&mut checker, name.as_bytes(), &record);
        assert_eq!(met, Met::Taken);
        let upper = name.to_ascii_uppercase();
        let met = looked_up(&mut checker, upper.as_bytes(), &record);
        assert_eq!(met, Met::Taken);
    }
    let at = FULL.find("a B").expect("a name");
    let own = &FULL.as_bytes()[at..at + 3];
    assert_eq!(lookup(FULL.as_bytes(), own), Ok(&b"0 u0.1 g"[..]));
}

/// Names of one character: which are alike, of two taxa and of one that is looked for. All of ASCII in
/// pairs, and some beyond, whose case matters.
#[test]
#[cfg_attr(not(archive), ignore = "no archive; tools/test-calls makes it")]
fn names_that_are_alike() {
    let mut checker = Checker::default();
    let mut pair = |first: &str, second: &str, alike: bool| {
        let name = |name: &str| format!("name={}", escape(name)).into_bytes();
        let one = with_line(FULL, "name=a B", &name(first));
        let met = looked_up(&mut checker, second.as_bytes(), &one);
        let refused = if unspell(&one).is_some() { 33 } else { 31 };
        let other = if alike && refused == 33 {
            Met::Taken
        } else {
            Met::Refused(refused)
        };
        assert_eq!(met, other, "{second:?} among {first:?}");
        let two = String::from_utf8(one).expect("UTF-8");
        let two = with_line(&two, "name=é'", &name(second));
        let met = checker.check_long_record(&two);
        let met = met.unwrap_or_else(|difference| panic!("{first:?}, {second:?}: {difference}"));
        if alike {
            assert_eq!(met, Met::Refused(31), "{first:?} and {second:?}");
        }
        met == Met::Taken
    };
    let mut taken = 0;
    for first in 0..128_u8 {
        for second in 0..128_u8 {
            let alike = first.eq_ignore_ascii_case(&second);
            let (first, second) = (char::from(first), char::from(second));
            taken += u32::from(pair(&first.to_string(), &second.to_string(), alike));
        }
    }
    assert!((10_000..16_384).contains(&taken), "{taken} are written");
    for (first, second) in [
        ("é", "É"),
        ("à", "À"),
        ("ß", "ss"),
        ("ß", "ẞ"),
        ("ſ", "s"),
        ("k", "\u{212a}"),
        ("å", "\u{212b}"),
        ("İ", "i"),
        ("ı", "I"),
        ("я", "Я"),
        ("σ", "ς"),
        ("Σ", "σ"),
        ("ǆ", "ǅ"),
        ("e\u{301}", "é"),
        ("\u{10428}", "\u{10400}"),
        ("a", "ａ"),
        ("xé", "Xè"),
    ] {
        assert!(pair(first, second, false), "{first:?} and {second:?}");
        assert!(pair(second, first, false), "{second:?} and {first:?}");
    }
    for (first, second) in [
        ("xé", "Xé"),
        ("K\u{212a}k", "k\u{212a}K"),
        ("É\\A\n", "É\\a\n"),
    ] {
        pair(first, second, true);
        pair(second, first, true);
    }
}

/// Two of many taxa with one name, wherever they stand.
#[test]
#[cfg_attr(not(archive), ignore = "no archive; tools/test-calls makes it")]
fn a_name_twice_anywhere() {
    const TAXA: usize = 20_000;
    let mut pairs = vec![
        (0, 1),
        (0, TAXA - 1),
        (TAXA - 2, TAXA - 1),
        (TAXA / 2, TAXA - 1),
    ];
    for power in 1..14 {
        let middle = 1 << power;
        pairs.extend([(0, middle), (middle - 1, middle), (middle, middle + 1)]);
        pairs.extend([(middle, 2 * middle), (middle, TAXA - 1)]);
    }
    for at in (1_000..TAXA).step_by(1_000) {
        pairs.extend([(0, at), (at - 1, at), (at, TAXA - 1)]);
    }
    let record = String::from_utf8(inputs::record(TAXA, 1)).expect("UTF-8");
    assert_eq!(lent(record.as_bytes(), MEGABYTE).map(|_| ()), Ok(()));
    for (first, second) in pairs {
        let (own, other) = (
            format!("\nname={second:x}\n"),
            format!("\nname={first:X}\n"),
        );
        let record = record.replace(&own, &other);
        assert_eq!(lent(record.as_bytes(), 0), Err(31), "{first} and {second}");
    }
}

/// The same where names crowd the words by which they are sifted, so that they are kept in order.
#[test]
#[cfg_attr(not(archive), ignore = "no archive; tools/test-calls makes it")]
fn a_name_twice_in_a_crowd() {
    const TAXA: usize = 20_000;
    let names = taxa::crowding(TAXA);
    let record = String::from_utf8(record_of(&taxa::text(&names, 1, Declared::No)));
    let record = record.expect("UTF-8");
    assert_eq!(lent(record.as_bytes(), MEGABYTE).map(|_| ()), Ok(()));
    let last = TAXA - 1;
    for (first, second) in [
        (0, 1),
        (0, last),
        (last - 1, last),
        (7_999, 8_000),
        (15_999, 16_000),
        (16_000, last),
        (123, 17_000),
    ] {
        let own = format!("\nname={}\n", names[second]);
        let other = format!("\nname={}\n", names[first].to_ascii_uppercase());
        let record = record.replace(&own, &other);
        assert_eq!(lent(record.as_bytes(), 0), Err(31), "{first} and {second}");
    }
}

/// A record whose form has so many bytes.
fn with_form_of(length: usize) -> Vec<u8> {
    let name = "x".repeat(length - example::FORM.len() + 1);
    let record = example::RECORD.replace("name=C", &format!("name={name}"));
    let reading = unspell(record.as_bytes()).expect("a record");
    assert_eq!(form(&reading).len(), length);
    record.into_bytes()
}

#[test]
#[cfg_attr(not(archive), ignore = "no archive; tools/test-calls makes it")]
fn lengths_of_forms() {
    for (length, met) in [
        (MEGABYTE - 1, Met::Taken),
        (MEGABYTE, Met::Taken),
        (MEGABYTE + 1, Met::Refused(32)),
        (3 * MEGABYTE, Met::Refused(32)),
    ] {
        let record = with_form_of(length);
        assert_eq!(checked_long("a form", &record), met, "{length} bytes");
        for (room, right) in [
            (0, Err(30)),
            (length - 1, Err(30)),
            (length, Ok(length)),
            (length + 1, Ok(length)),
        ] {
            let given = lent(&record, room).map(|form| form.len());
            let right = if met == Met::Taken { right } else { Err(32) };
            assert_eq!(given, right, "{length} bytes, {room} bytes of room");
        }
    }
}

#[test]
#[cfg_attr(not(archive), ignore = "no archive; tools/test-calls makes it")]
fn records_of_a_megabyte() {
    for (what, text, met) in [
        ("pages", inputs::pages(50, 15_000, 60), Met::Taken),
        ("rows", inputs::rows(10_000, 80), Met::Taken),
        ("sets", inputs::standard(100, 5_500, true), Met::Taken),
        ("taxa", inputs::names(60_000, false), Met::Taken),
        ("more taxa", inputs::names(90_000, false), Met::Refused(32)),
        ("labels", inputs::labels(13_000), Met::Taken),
        ("a long label", inputs::long_label(1_000_000), Met::Taken),
        ("a list", inputs::listed(130_000), Met::Taken),
        ("a vector", inputs::vector(200_000), Met::Taken),
        ("a row", inputs::row(MEGABYTE), Met::Taken),
    ] {
        let record = record_of(&text);
        assert!(record.len() > MEGABYTE / 2, "{what}: {}", record.len());
        assert_eq!(checked_long(what, &record), met, "{what}");
        let reading = unspell(&record).expect("a record");
        let taxa = reading.taxa();
        let names = [&taxa[0], &taxa[taxa.len() / 2], &taxa[taxa.len() - 1]];
        for name in names {
            let found = Checker::default().check_lookup(name.as_bytes(), &record);
            assert_eq!(found, Ok(Met::Taken), "{what}");
        }
        let found = Checker::default().check_lookup(b"no such taxon", &record);
        assert_eq!(found, Ok(Met::Refused(33)), "{what}");
        // A fault in the last line, and one name that two taxa have.
        let end = record.len();
        for broken in [&record[..end - 1], &[&record[..], b"x"].concat()] {
            assert_eq!(checked_long(what, broken), Met::Refused(31), "{what}");
        }
        if taxa.len() > 1 {
            let last = format!("\nname={}\n", taxa[taxa.len() - 1]);
            let first = format!("\nname={}\n", taxa[0].to_ascii_uppercase());
            let lines = String::from_utf8_lossy(&record).replace(&last, &first);
            let met = checked_long("a name twice", lines.as_bytes());
            assert_eq!(met, Met::Refused(31), "{what}");
        }
    }
}

/// As many taxa, or characters, as a record may have, and one more.
#[test]
#[cfg_attr(not(archive), ignore = "no archive; tools/test-calls makes it")]
fn counts_at_the_limit() {
    for (count, refused) in [(MEGABYTE, 32), (MEGABYTE + 1, 31)] {
        let record = inputs::record(count, 1);
        assert_eq!(lent(&record, 9), Err(refused), "{count} taxa");
        let record = inputs::record(1, count);
        let met = checked_long("characters", &record);
        assert_eq!(met, Met::Refused(refused), "{count} characters");
        let number = if refused == 31 { 31 } else { 33 };
        let found = Checker::default().check_lookup(b"none", &record);
        assert_eq!(found, Ok(Met::Refused(number)), "{count} characters");
    }
}
