//! The calls on a thread that has the stack which include/nexus.h asks for, and no more. They have no
//! memory but what is lent and fixed local tables, of which the longest, for the names of a record,
//! take 189 KiB together.

use inputs::taxa::{self, Declared};
use nexus::{Refusal, STACK_NEEDED, lookup, read_into, work_needed, write_into};

/// A name that no taxon has.
const ABSENT: &[u8] = b"no such name";

/// Reads, writes, looks up and reads again, with memory that was lent beforehand.
fn all_calls(text: &[u8], work: &mut [u32], kept: &mut [u8], form: &mut [u8]) -> usize {
    let length = read_into(text, work, kept).expect("the text is read");
    let record = &kept[..length];
    assert!(lookup(record, ABSENT).is_err());
    let written = write_into(record, form).expect("the record is written");
    let mut again = vec![0; length];
    let back = read_into(&form[..written], work, &mut again).expect("the form is read");
    assert!(back == length && again == record);
    length
}

/// Does something on a thread with a small stack, and says whether it came to its end. Where the stack
/// is too small the whole test ends.
fn on_small_stack(name: &str, run: impl FnOnce() + Send + 'static) {
    let small = std::thread::Builder::new().name(name.into());
    let thread = small.stack_size(STACK_NEEDED).spawn(run);
    assert!(thread.expect("a thread").join().is_ok(), "{name}");
}

/// The text of taxa with names of a kind.
fn named(taxa: usize, kind: fn(usize) -> String, declared: Declared) -> Vec<u8> {
    taxa::text(&taxa::names(taxa, kind), 1, declared)
}

#[test]
#[cfg_attr(not(archive), ignore = "no archive; tools/test-calls makes it")]
fn a_small_stack_is_enough() {
    let together = |taxa, slots| taxa::text(&taxa::colliding(taxa, slots), 1, Declared::InOrder);
    let texts = vec![
        ("few declared names", inputs::names(2_000, true)),
        ("many declared names", inputs::names(12_000, true)),
        (
            "declared names, reversed",
            named(12_000, taxa::four_letters, Declared::Reversed),
        ),
        ("names in rows", inputs::names(64_000, false)),
        (
            "as many names as are short",
            named(100_000, taxa::three_signs, Declared::No),
        ),
        ("long names", named(9_000, taxa::species, Declared::InOrder)),
        ("quoted names", named(9_000, taxa::quoted, Declared::No)),
        (
            "names with comments",
            named(9_000, taxa::commented, Declared::InOrder),
        ),
        ("names that collide", together(2_000, 8_001)),
        ("many names that collide", together(60_000, 240_001)),
        (
            "names that crowd a record",
            taxa::text(&taxa::crowding(90_000), 1, Declared::No),
        ),
        ("pages", inputs::pages(50, 1_200, 60)),
        ("pages of many taxa", inputs::pages(9_000, 4, 2)),
        ("sets", inputs::standard(50, 500, true)),
        ("labels", inputs::labels(2_000)),
        ("a long label", inputs::long_label(200_000)),
        ("a list of characters", inputs::listed(5_000)),
        ("ranges", inputs::ranges(5_000)),
        ("sets of types", inputs::sets(5_000)),
        ("a vector of types", inputs::vector(5_000)),
        ("comments", inputs::comments(20_000)),
        ("a deep comment", inputs::deep_comment(400_000)),
    ];
    for (name, text) in texts {
        let mut work = vec![0; work_needed(&text).max(4 * inputs::MEGABYTE + 64)];
        let mut kept = vec![0; 64 * text.len() + 256];
        let mut form = vec![0; inputs::MEGABYTE];
        on_small_stack(name, move || {
            assert!(all_calls(&text, &mut work, &mut kept, &mut form) > 0);
        });
    }
}

#[test]
#[cfg_attr(not(archive), ignore = "no archive; tools/test-calls makes it")]
fn a_small_stack_is_enough_for_long_records() {
    const MANY: usize = 200_000;
    let numbers = |taxa| taxa::names(taxa, |taxon| format!("{taxon:x}"));
    for (what, names) in [
        ("a record of few names", numbers(200)),
        ("a record of some names", numbers(300)),
        ("a record of more names", numbers(8_001)),
        ("a record of many names", numbers(MANY)),
        ("many names that crowd", taxa::crowding(MANY)),
        ("many names that collide", taxa::colliding(MANY, 10_496)),
    ] {
        let record = inputs::named_record(&names, 1);
        let mut form = vec![0; inputs::MEGABYTE];
        on_small_stack(what, move || {
            let last = names[names.len() - 1].as_bytes();
            assert_eq!(lookup(&record, last), Ok(&b"0"[..]));
            assert!(lookup(&record, ABSENT).is_err());
            match write_into(&record, &mut form) {
                Ok(_) => assert!(names.len() < MANY),
                Err(refusal) => {
                    assert_eq!(
                        (names.len(), refusal.number),
                        (MANY, Refusal::FORM_TOO_LONG)
                    );
                }
            }
        });
    }
}
