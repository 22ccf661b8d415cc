//! The order of refusals, the lengths of texts, and texts near the limit.

use calls::{Checker, Met};
use inputs::taxa::{self, Declared};
use inputs::{MEGABYTE, example};
use nexus::{Refusal, read_into, work_needed};
use oracle::answer::Answer;

/// Reads with so many numbers of work memory and so many bytes of a buffer.
fn lent(text: &[u8], work: usize, buffer: usize) -> Result<Vec<u8>, (u32, usize, usize)> {
    let (mut work, mut buffer) = (vec![!0; work], vec![0; buffer]);
    match read_into(text, &mut work, &mut buffer) {
        Ok(length) => Ok(buffer[..length].to_vec()),
        Err(Refusal {
            number,
            line,
            column,
        }) => Err((number, line, column)),
    }
}

#[track_caller]
fn checked(name: &str, text: &[u8]) -> Met {
    let checked = Checker::default().check_long(text);
    checked.unwrap_or_else(|difference| panic!("{name}, {} bytes:\n{difference}", text.len()))
}

#[test]
#[cfg_attr(not(archive), ignore = "no archive; tools/test-calls makes it")]
fn refusals_come_in_order() {
    // A text that is too long, not UTF-8, and has an open quote.
    let mut long = vec![b'\''; MEGABYTE + 1];
    long[7] = 0xff;
    assert_eq!(lent(&long, 0, 0), Err((1, 0, 0)));
    assert_eq!(lent(&long, work_needed(&long), 9), Err((1, 0, 0)));
    let long = &long[1..];
    assert_eq!(lent(long, work_needed(long) - 1, 0), Err((2, 0, 0)));
    assert_eq!(lent(long, work_needed(long), 0), Err((3, 0, 0)));
    for short in 0..work_needed(b"\xff'") {
        assert_eq!(lent(b"\xff'", short, 0), Err((2, 0, 0)));
    }
    assert_eq!(lent(b"\xff'", 72, 0), Err((3, 0, 0)));
    assert_eq!(lent(b"\n '[\xff", 84, 0), Err((3, 0, 0)));
    // What is open goes before every other fault of the text.
    assert_eq!(lent(b"X '[", 80, 0), Err((4, 1, 3)));
    assert_eq!(lent(b"X\n['", 80, 0), Err((5, 2, 1)));
    assert_eq!(lent(b"X", 68, 0), Err((6, 1, 1)));
    assert_eq!(lent(b"", 64, 0), Err((6, 1, 1)));
}

#[test]
#[cfg_attr(not(archive), ignore = "no archive; tools/test-calls makes it")]
fn a_fault_at_the_very_end_goes_before_30() {
    let text = example::TEXT.as_bytes();
    let record = example::RECORD.as_bytes();
    for room in 0..record.len() + 3 {
        let right = match room < record.len() {
            true => Err((30, 0, 0)),
            false => Ok(record.to_vec()),
        };
        assert_eq!(lent(text, work_needed(text), room), right);
        for (more, refused) in [
            ("'", (4, 8, 1)),
            ("END", (8, 8, 1)),
            (";", (7, 8, 1)),
            ("BEGIN X;", (12, 8, 7)),
        ] {
            let text = [text, more.as_bytes()].concat();
            assert_eq!(lent(&text, work_needed(&text), room), Err(refused));
        }
    }
}

#[test]
#[cfg_attr(not(archive), ignore = "no archive; tools/test-calls makes it")]
fn lengths_of_texts() {
    for byte in *b"\n ;a'[\xff" {
        for length in [0, 1, 2, MEGABYTE - 1, MEGABYTE, MEGABYTE + 1] {
            let met = checked(&format!("{:?}", char::from(byte)), &vec![byte; length]);
            assert_eq!(met == Met::Refused(1), length > MEGABYTE);
        }
    }
    // The same text read, and one byte too long.
    let text = inputs::row(MEGABYTE);
    assert_eq!(checked("a row", &text), Met::Taken);
    let long = [text, b"\n".to_vec()].concat();
    assert_eq!(checked("a row and one byte", &long), Met::Refused(1));
}

#[test]
#[cfg_attr(not(archive), ignore = "no archive; tools/test-calls makes it")]
fn texts_of_a_megabyte() {
    let beyond_ascii = |length: usize| {
        let label = "Bärlauch żółć 日本 \u{1f33f}".repeat(length / 32);
        example::TEXT.replace("a_b", &format!("'{label}'"))
    };
    for (name, text, read) in [
        ("pages", inputs::pages(50, 15_000, 60), true),
        ("rows", inputs::rows(10_000, 80), true),
        ("sets", inputs::standard(100, 5_500, true), true),
        ("taxa", inputs::names(90_000, false), true),
        ("declared taxa", inputs::names(5_000, true), true),
        ("labels", inputs::labels(13_000), true),
        ("a long label", inputs::long_label(1_000_000), true),
        ("a list", inputs::listed(130_000), true),
        ("a list twice", inputs::listed_again(200_000), false),
        ("a vector", inputs::vector(200_000), true),
        ("a mixed vector", inputs::mixed_vector(150_000), true),
        ("beyond ASCII", beyond_ascii(900_000).into_bytes(), true),
        ("comments", inputs::nested(MEGABYTE), false),
    ] {
        assert!(text.len() <= MEGABYTE, "{name}: {} bytes", text.len());
        let met = checked(name, &text);
        assert_eq!(met == Met::Taken, read, "{name}: {met:?}");
    }
}

/// Characters whose numbers differ in the last digit alone, of one type and of two, by a type set or without one, and with a
/// label among them.
#[test]
#[cfg_attr(not(archive), ignore = "no archive; tools/test-calls makes it")]
fn characters_by_the_ten() {
    let types: [(&str, fn(usize) -> bool); 5] = [
        ("all", |_| true),
        ("none", |_| false),
        ("by turns", |character| character % 2 == 0),
        ("one of ten", |character| character % 10 == 7),
        ("in no order", |character| {
            character * character / 7 % 3 == 1
        }),
    ];
    for characters in [8, 9, 10, 11, 18, 19, 20, 21, 29, 99, 100, 109, 250, 1_100] {
        let row: String = ["0", "1", "?"]
            .into_iter()
            .cycle()
            .take(characters)
            .collect();
        for (name, ordered) in types {
            let numbers: Vec<String> = (1..=characters)
                .filter(|character| ordered(*character))
                .map(|character| character.to_string())
                .collect();
            for default in ["", "OPTIONS DEFTYPE=ORD;", "OPTIONS DEFTYPE=UNORD;"] {
                for label in ["", "CHARSTATELABELS 150 here, 250 / a b;"] {
                    let word = ["ORD", "UNORD"][usize::from(default.contains("=ORD"))];
                    let set = match numbers.is_empty() {
                        true => String::new(),
                        false => format!("TYPESET * t = {word}: {};", numbers.join(" ")),
                    };
                    let labelled = characters >= 250 || label.is_empty();
                    let text = format!(
                        "#NEXUS BEGIN DATA; DIMENSIONS NTAX=1 NCHAR={characters}; {label} MATRIX a {row}; END; \
                        BEGIN ASSUMPTIONS; {default} {set} END;"
                    );
                    let met = checked(name, text.as_bytes());
                    assert_eq!(met == Met::Taken, labelled, "{name}, {characters}: {met:?}");
                }
            }
        }
    }
}

/// A fault in the last bytes of a long text has its place.
#[test]
#[cfg_attr(not(archive), ignore = "no archive; tools/test-calls makes it")]
fn late_faults() {
    for text in [
        inputs::pages(20, 2_000, 60),
        inputs::standard(50, 500, true),
        inputs::names(5_000, false),
        inputs::labels(1_000),
        inputs::listed(5_000),
    ] {
        let end = text.len();
        for (cut, more) in [
            (7, "X"),
            (6, ""),
            (2, ""),
            (0, "["),
            (0, "é ;"),
            (9, "\r\né#;"),
        ] {
            let faulty = [&text[..end - cut], more.as_bytes()].concat();
            let met = checked(more, &faulty);
            assert!(matches!(met, Met::Refused(4..)), "{met:?}");
        }
        // Two taxa with one name, and names that differ by case alone.
        for (from, to) in [("taxon00049", "TAXON00007"), ("hkha", "HAAA")] {
            let text = String::from_utf8_lossy(&text).replace(from, to);
            checked(to, text.as_bytes());
        }
    }
}

/// Names whose slots lie together, declared and not: all differ, or two are alike, or one has no row.
#[test]
#[cfg_attr(not(archive), ignore = "no archive; tools/test-calls makes it")]
fn names_that_collide() {
    const TAXA: usize = 2_000;
    let names = taxa::colliding(TAXA, 4 * TAXA + 1);
    for declared in [Declared::No, Declared::InOrder, Declared::Reversed] {
        let text = taxa::text(&names, 1, declared);
        assert_eq!(checked("names", &text), Met::Taken);
        for (first, second) in [(0, 1), (0, TAXA - 1), (15, 17), (1_000, 1_900)] {
            let mut twice = names.clone();
            twice[second] = names[first].to_ascii_uppercase();
            let text = taxa::text(&twice, 1, declared);
            assert_eq!(checked("a name twice", &text), Met::Refused(18));
        }
        let text = String::from_utf8(text).expect("UTF-8");
        let other = text.replace(&format!("{} ", names[1_234]), "other ");
        let met = checked("another name", other.as_bytes());
        let refused = declared != Declared::No;
        assert_eq!(met == Met::Refused(25), refused, "{met:?}");
    }
}

/// What the oracle cannot bear is not compared, and not called a difference.
#[test]
fn texts_beyond_the_oracle() {
    let names: String = (0..100_000).map(|i| format!("{i:x} ")).collect();
    let text = format!("#NEXUS BEGIN TAXA; DIMENSIONS NTAX=100000; TAXLABELS {names};");
    let answer = oracle::answer::read(text.as_bytes(), u64::MAX, u64::MAX);
    assert!(matches!(answer, Answer::Beyond(_)));
    assert_eq!(checked("names", text.as_bytes()), Met::Beyond);
}

/// Every text of up to three bytes from a list that has each class, each quote and bracket, the
/// two newlines, a byte order mark's bytes, and the ends of the ranges of UTF-8: by itself, as the
/// name of a taxon, and in front of a fault.
#[test]
#[cfg_attr(not(archive), ignore = "no archive; tools/test-calls makes it")]
fn all_short_texts() {
    let bytes = b"a'\"[] \n\r;+\x0b\x0c\x1c\x1f\xc2\x85\xa0\xe1\x9a\x80\xe2\xaf\xe3\xef\xbb\xbf\xed\x9f\xf0\x90\xf4\x8f\xc1\xf5\xff";
    let mut texts: Vec<Vec<u8>> = vec![Vec::new()];
    let mut from = 0;
    for _ in 0..3 {
        let to = texts.len();
        for at in from..to {
            for byte in bytes {
                let mut text = texts[at].clone();
                text.push(*byte);
                texts.push(text);
            }
        }
        from = to;
    }
    let head = b"#NEXUS BEGIN DATA;DIMENSIONS NTAX=1 NCHAR=1;MATRIX ";
    let mut checker = Checker::default();
    let mut read = 0;
    for text in &texts {
        for text in [
            text.clone(),
            [head, text.as_slice(), b" 0;END;"].concat(),
            [text.as_slice(), b"x;"].concat(),
        ] {
            match checker.check_long(&text) {
                Ok(met) => read += u32::from(met == Met::Taken),
                Err(difference) => {
                    let question = calls::Question::Text(text);
                    panic!("{}", calls::explained(&question, &difference))
                }
            }
        }
    }
    assert!(read > 1_000, "{read} are read");
}
