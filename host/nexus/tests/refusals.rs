//! The table of refusals: every example is refused by its number at its place, and not refused once
//! it is mended; and docs/REFUSALS.md is what the table gives.

use std::collections::HashSet;
use std::path::Path;

use nexus::Refusal;
use nexus::refusals::{Call, Entry, Example, all, page};
use oracle::answer::{self, Answer, ENOUGH};

/// What the oracle says to an example.
fn asked_of_the_oracle(example: &Example) -> Result<Vec<u8>, Refusal> {
    let bytes = example.bytes();
    let answer = match example.call() {
        Call::Read => answer::read(&bytes, ENOUGH, ENOUGH),
        Call::ReadInto { work, buffer } => answer::read(&bytes, work as u64, buffer as u64),
        Call::Write => answer::write(&bytes, ENOUGH),
        Call::Lookup(name) => match oracle::lookup::lookup(name.as_bytes(), &bytes) {
            Ok(found) => Answer::Bytes(bytes[found.start..][..found.length].to_vec()),
            Err(number) => Answer::Refused(answer::Refusal {
                number,
                line: 0,
                column: 0,
            }),
        },
    };
    match answer {
        Answer::Bytes(bytes) => Ok(bytes),
        Answer::Refused(refusal) => Err(Refusal {
            number: refusal.number,
            line: refusal.line,
            column: refusal.column,
        }),
        Answer::Beyond(beyond) => panic!("{beyond:?}"),
    }
}

#[test]
fn every_number_has_an_entry() {
    assert!(all().map(|entry| entry.number).eq(1..=33));
    let mut texts = HashSet::new();
    for entry in all() {
        let Entry { number, .. } = entry;
        for text in [entry.title, entry.sentence, entry.meaning, entry.mend] {
            assert!(texts.insert(text), "{number} has the words of another");
        }
        for text in [entry.sentence, entry.meaning, entry.place, entry.mend] {
            assert!(text.ends_with('.'), "{number}: {text}");
            assert!(text.starts_with(char::is_uppercase), "{number}: {text}");
        }
        assert_eq!(entry.refusal().sentence(), entry.sentence);
        assert_eq!(entry.refusal().reason(), entry.title);
    }
}

#[test]
fn the_oracle_refuses_every_example_as_the_table_says() {
    for entry in all() {
        let refused = asked_of_the_oracle(&entry.refused);
        assert_eq!(refused, Err(entry.refusal()), "{}", entry.number);
        let mended = asked_of_the_oracle(&entry.mended);
        assert!(mended.is_ok(), "{}: {mended:?}", entry.number);
    }
}

#[test]
#[cfg_attr(not(archive), ignore = "no archive; tools/test-calls makes it")]
fn the_calls_refuse_every_example_as_the_table_says() {
    for entry in all() {
        let refused = entry.refused.ask();
        assert_eq!(refused, Err(entry.refusal()), "{}", entry.number);
        let mended = entry.mended.ask();
        assert_eq!(mended, asked_of_the_oracle(&entry.mended));
    }
}

#[test]
fn the_page_is_that_of_the_table() {
    let path = Path::new(env!("CARGO_MANIFEST_DIR")).join("../../docs/REFUSALS.md");
    let kept = std::fs::read_to_string(path).expect("docs/REFUSALS.md");
    let made = page();
    let differs = kept.lines().zip(made.lines()).find(|(a, b)| a != b);
    assert_eq!(differs, None, "the example `refusals` writes it anew");
    assert_eq!(kept, made);
}
