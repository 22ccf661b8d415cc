//! What holds of generated questions.

mod common;

use std::collections::HashMap;

use common::{fnv, refused};
use oracle::answer::{Answer, ENOUGH, lookup, read, tokens, write};
use oracle::generate;
use oracle::messages::TABLE;
use oracle::nexus;
use oracle::record::{spell, unescape, unspell};
use oracle::tally::{Tally, site};

/// The records of the generated texts that are read, with the texts.
fn read_texts(seed: u64, count: u64) -> impl Iterator<Item = (Vec<u8>, Vec<u8>)> {
    let texts = (0..count).map(move |number| generate::text(seed, number));
    texts.filter_map(|text| match read(&text, ENOUGH, ENOUGH) {
        Answer::Bytes(record) => Some((text, record)),
        _ => None,
    })
}

fn form(record: &[u8]) -> Vec<u8> {
    match write(record, ENOUGH) {
        Answer::Bytes(form) => form,
        other => panic!("{other:?} for {}", String::from_utf8_lossy(record)),
    }
}

#[test]
fn a_sound_text_is_read_as_what_it_was_made_from() {
    for number in 0..20_000 {
        let (reading, text) = generate::sound_pair(11, number);
        assert_eq!(nexus::parse(&text), Ok(reading), "text {number}: {text:?}");
    }
}

#[test]
fn every_call_site_is_reached_and_a_third_is_read() {
    for seed in [1, 20_261_115] {
        let mut tally = Tally::default();
        for number in 0..100_000 {
            tally.add(&generate::text(seed, number));
        }
        for (row, count) in TABLE.iter().zip(&tally.rows) {
            assert!(*count >= 20, "{} is reached {count} times", row.site);
        }
        let percent = tally.read * 100 / tally.texts;
        assert!((28..40).contains(&percent), "{percent} percent are read");
        assert!(tally.bytes / tally.texts < 200, "{}", tally.report());
        assert!(tally.longest <= 1_000, "{}", tally.report());
        assert!(tally.not_utf8 >= 20, "{}", tally.report());
    }
}

#[test]
fn a_fault_reaches_its_call_site() {
    for (fault, own) in generate::fault_sites().into_iter().enumerate() {
        let reaches = |number: &u64| {
            let text = generate::faulty_text(5, *number, fault);
            let error = nexus::parse(&text).err();
            error.is_some_and(|error| TABLE[site(&text, &error)].site == own)
        };
        let count = (0..200).filter(reaches).count();
        assert!(count >= 100, "{own}: {count} of 200");
    }
    // Each row but that of `label` itself has a fault.
    assert_eq!(generate::fault_sites().len(), TABLE.len() - 1);
}

#[test]
fn a_question_depends_on_its_seed_and_number_alone() {
    for number in [0, 1, 99, 1_000_000] {
        assert_eq!(generate::text(3, number), generate::text(3, number));
        assert_eq!(generate::record(3, number), generate::record(3, number));
        assert_eq!(generate::lookup(3, number), generate::lookup(3, number));
        assert_ne!(generate::text(3, number), generate::text(4, number));
    }
    // The generator is the same on every machine.
    let sum = fnv((0..1_000).flat_map(|number| generate::text(1, number)));
    assert_eq!(sum, 4174925511388453257, "the generated texts have changed");
}

#[test]
fn what_is_written_is_read_again() {
    let mut count = 0;
    for (text, record) in read_texts(21, 40_000) {
        let form = form(&record);
        let again = read(&form, ENOUGH, ENOUGH);
        assert_eq!(
            again,
            Answer::Bytes(record),
            "{}",
            String::from_utf8_lossy(&text)
        );
        count += 1;
    }
    assert!(count > 10_000);
}

#[test]
fn records_of_texts_are_records() {
    for (_, record) in read_texts(22, 40_000) {
        let reading = unspell(&record).expect("a record");
        assert_eq!(spell(&reading), record);
    }
}

#[test]
fn a_record_is_unspelled_as_what_was_read() {
    for number in 0..20_000 {
        let (reading, _) = generate::sound_pair(12, number);
        assert_eq!(unspell(&spell(&reading)), Some(reading));
    }
}

#[test]
fn forms_are_equal_just_where_records_are() {
    let mut forms = HashMap::new();
    let mut records = HashMap::new();
    let mut equal = 0;
    for (_, record) in read_texts(23, 40_000) {
        let form = form(&record);
        let known = forms.insert(record.clone(), form.clone());
        equal += usize::from(known.is_some());
        assert!(known.is_none_or(|known| known == form));
        let known = records.insert(form, record.clone());
        assert!(known.is_none_or(|known| known == record));
    }
    assert!(equal > 20 && records.len() > 5_000);
}

#[test]
fn buffers_are_measured() {
    for (text, record) in read_texts(24, 5_000) {
        let length = record.len() as u64;
        assert_eq!(read(&text, ENOUGH, length), Answer::Bytes(record.clone()));
        assert_eq!(read(&text, ENOUGH, length - 1), refused(30, 0, 0));
        assert_eq!(read(&text, ENOUGH, 0), refused(30, 0, 0));
        let work = 4 * text.len() as u64 + 64;
        assert_eq!(read(&text, work, length), Answer::Bytes(record.clone()));
        assert_eq!(read(&text, work - 1, 0), refused(2, 0, 0));
        let form = form(&record);
        let length = form.len() as u64;
        assert_eq!(write(&record, length), Answer::Bytes(form));
        assert_eq!(write(&record, length - 1), refused(30, 0, 0));
    }
}

#[test]
fn a_fault_is_said_before_a_short_buffer() {
    for number in 0..20_000 {
        let text = generate::text(25, number);
        let answer = read(&text, ENOUGH, ENOUGH);
        if matches!(answer, Answer::Refused(_)) {
            assert_eq!(read(&text, ENOUGH, 0), answer);
        }
    }
}

#[test]
fn each_damage_of_a_record_is_31() {
    for (damage, kind) in generate::DAMAGES.iter().enumerate() {
        let mut count = 0;
        for number in 0..400 {
            let (record, damaged) = generate::damaged_record(31, number, damage);
            assert!(unspell(&record).is_some());
            let Some(damaged) = damaged else { continue };
            count += 1;
            let text = String::from_utf8_lossy(&damaged);
            assert_eq!(
                write(&damaged, ENOUGH),
                refused(31, 0, 0),
                "{}:\n{text}",
                kind.what
            );
        }
        assert!(count >= 40, "{}: {count}", kind.what);
    }
}

#[test]
fn a_sound_record_is_its_forms_record() {
    let mut sound = 0;
    let count = 10_000;
    for number in 0..count {
        let record = generate::record(32, number);
        match write(&record, ENOUGH) {
            Answer::Bytes(form) => {
                sound += 1;
                assert_eq!(read(&form, ENOUGH, ENOUGH), Answer::Bytes(record));
            }
            other => assert_eq!(other, refused(31, 0, 0)),
        }
    }
    assert!(
        (40..60).contains(&(sound * 100 / count)),
        "{sound} of {count}"
    );
}

#[test]
fn lookups_find_the_row() {
    let mut found = [0, 0, 0];
    for number in 0..20_000 {
        let (name, record) = generate::lookup(33, number);
        let answer = String::from_utf8(lookup(&name, &record)).expect("lines");
        let numbers: Vec<usize> = answer
            .lines()
            .map(|line| {
                line.split_once('=')
                    .expect("a line")
                    .1
                    .parse()
                    .expect("a number")
            })
            .collect();
        let [refused, start, length] = numbers[..] else {
            panic!("{answer}");
        };
        match (refused, unspell(&record)) {
            (31, None) => found[0] += 1,
            (33, Some(reading)) => {
                found[1] += 1;
                let mut names = reading.taxa().iter();
                assert!(!names.any(|own| own.as_bytes().eq_ignore_ascii_case(&name)));
                assert_eq!((start, length), (0, 0));
            }
            (0, Some(_)) => {
                found[2] += 1;
                check_stretch(&name, &record, start, length);
            }
            _ => panic!("{answer} for {}", String::from_utf8_lossy(&record)),
        }
    }
    assert!(found.iter().all(|&count| count > 2_000), "{found:?}");
}

/// The stretch is the rest of a line after `cells=`, and the line before it has the name.
fn check_stretch(name: &[u8], record: &[u8], start: usize, length: usize) {
    assert!(length > 0);
    assert!(record[..start].ends_with(b"\ncells="));
    assert_eq!(record[start + length], b'\n');
    assert!(!record[start..start + length].contains(&b'\n'));
    let before = &record[..start - "\ncells=".len()];
    let line = before.rsplit(|&byte| byte == b'\n').next().expect("a line");
    let own = unescape(line.strip_prefix(b"name=").expect("a name")).expect("escapes");
    assert!(own.as_bytes().eq_ignore_ascii_case(name));
}

#[test]
fn the_lexers_tokens() {
    let lines =
        |text: &str| String::from_utf8(tokens(text.as_bytes()).into_bytes()).expect("lines");
    assert_eq!(
        lines("\u{feff}a[x]b 'c''d'\r\n\"\r\"= é"),
        "WORD 1 2 6162\nQUOTED 1 8 632764\nNEWLINE 1 14 \nSTRING 2 1 0a\nPUNCTUATION 3 2 3d\nWORD 3 4 c3a9\n"
    );
    assert_eq!(lines(""), "");
    assert_eq!(lines("a 'b"), "refused=4\nline=1\ncolumn=3\n");
    assert_eq!(tokens(b"\xff"), refused(3, 0, 0));
}

#[test]
fn the_lexer_refuses_just_what_the_reader_refuses_with_4_and_5() {
    for number in 0..20_000 {
        let text = generate::text(26, number);
        let of_reader = match read(&text, ENOUGH, ENOUGH) {
            Answer::Refused(r) if (3..=5).contains(&r.number) => Some(r),
            _ => None,
        };
        let of_lexer = match tokens(&text) {
            Answer::Refused(r) => Some(r),
            _ => None,
        };
        assert_eq!(of_reader, of_lexer);
    }
}
