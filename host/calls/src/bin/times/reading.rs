//! The read call and rove's `parse`.

use std::hint::black_box;

use inputs::MEGABYTE;
use nexus::{Refusal, longest_record, read_into, work_needed};
use oracle::data::Matrix;
use oracle::nexus::{Error, parse};
use oracle::record::spell;

use crate::{ENOUGH, SHAPES, TURNS, Turns, begin};

pub fn print() {
    println!(
        "{:36} {:>9} {:>9} {:>9} {:>9} {:>6}",
        "reading", "bytes", "ms", "proved", "Rust", "ratio"
    );
    for (name, size, text) in SHAPES {
        begin(name);
        let text = text(*size);
        let best = best(name, &text);
        let a_byte = |seconds: f64| seconds * 1e9 / text.len() as f64;
        println!(
            "{:9} {:9.2} {:9.3} {:9.3} {:6.2}",
            text.len(),
            best.proved * 1e3,
            a_byte(best.proved),
            a_byte(best.rust),
            best.rust / best.proved
        );
    }
    println!(
        "ms: the proved call, milliseconds; proved, Rust: nanoseconds a byte, best of {TURNS} turns, or of \
        those that\n{ENOUGH} s hold, but one at least; ratio: Rust / proved"
    );
}

/// The best times of the two sides.
pub struct Both {
    pub proved: f64,
    pub rust: f64,
}

/// The best times for a text, once both sides agree on it.
pub fn best(name: &str, text: &[u8]) -> Both {
    assert!(text.len() <= MEGABYTE, "{name}: {} bytes", text.len());
    let (mut proved, mut rust) = (Turns::new(), Turns::new());
    let characters = std::str::from_utf8(text).expect("long inputs are ASCII");
    let parsed = rust.turn(|| parse(black_box(characters)));
    let expected = answer(parsed.expect("a first turn"));
    let room = longest_record(text.len());
    let (mut work, mut buffer) = (vec![0; work_needed(text)], vec![0; room]);
    let first = proved.turn(|| read_into(black_box(text), &mut work, &mut buffer));
    let given = first.expect("a first turn");
    let given = given.map(|length| buffer[..length].to_vec());
    assert!(given == expected, "{name}: the answers differ");
    for _ in 1..TURNS {
        proved.turn(|| read_into(black_box(text), &mut work, &mut buffer));
        rust.turn(|| parse(black_box(characters)));
    }
    Both {
        proved: proved.best,
        rust: rust.best,
    }
}

/// What the calls are to answer to a text that rove has parsed.
fn answer(parsed: Result<Matrix, Error>) -> Result<Vec<u8>, Refusal> {
    parsed.map(|matrix| spell(&matrix)).map_err(|error| {
        let refusal = oracle::answer::refusal(&error);
        Refusal {
            number: refusal.number,
            line: refusal.line,
            column: refusal.column,
        }
    })
}
