//! Times the calls: the read call against rove's `parse` on the same inputs, by turns; the calls that
//! write and look up on the records of these; how long it takes that many names differ; and how all
//! of them grow with their input. Other tables: whole processes, beside those of other readers, and
//! instructions; and those of docs/TIMES.md. Run it by tools/bench.

mod growth;
mod instructions;
mod markdown;
mod names;
mod peers;
mod process;
mod reading;
mod records;

use std::io::Write;
use std::path::Path;
use std::process::ExitCode;

use inputs::MEGABYTE;
use inputs::clock::timed;
use inputs::taxa::{self, Declared};
use nexus::archive::{LINKED, NOT_LINKED};

/// The most turns of a side on one input. It has fewer once they take longer than `ENOUGH`, and
/// one at least.
const TURNS: usize = 40;

/// Seconds.
const ENOUGH: f64 = 1.0;

/// A kind of input: its name, its size, and the text of a size.
type Shape = (&'static str, usize, fn(usize) -> Vec<u8>);

const SHAPES: &[Shape] = &[
    ("DNA, 50 by 15,000, pages of 60", 15_000, |n| {
        inputs::pages(50, n, 60)
    }),
    ("DNA, 10,000 by 50", 10_000, |n| inputs::rows(n, 50)),
    ("STANDARD, 100 by 5,000", 5_000, |n| {
        inputs::standard(100, n, false)
    }),
    ("the same, each fourth cell a set", 5_000, |n| {
        inputs::standard(100, n, true)
    }),
    ("one row of a megabyte", MEGABYTE, inputs::row),
    ("60,000 taxa by 5", 60_000, |n| inputs::names(n, false)),
    ("60,000 declared taxa by 5", 60_000, |n| {
        inputs::names(n, true)
    }),
    ("100,000 declared taxa by 1", 100_000, |n| {
        taxa::text(&taxa::names(n, taxa::three_signs), 1, Declared::InOrder)
    }),
    ("40,000 quoted names by 5", 40_000, |n| {
        taxa::text(&taxa::names(n, taxa::quoted), 5, Declared::No)
    }),
    ("labels for 5,000 characters", 5_000, inputs::labels),
    ("TYPESET, a list of 140,000", 140_000, inputs::listed),
    (
        "TYPESET, a list of 200,000, refused",
        200_000,
        inputs::listed_again,
    ),
    ("TYPESET, a vector of 200,000", 200_000, inputs::vector),
    ("100,000 comments", 100_000, inputs::comments),
    ("a comment 500,000 deep", 500_000, inputs::deep_comment),
];

fn main() -> ExitCode {
    if !LINKED {
        println!("{NOT_LINKED}");
        return ExitCode::FAILURE;
    }
    let arguments: Vec<String> = std::env::args().skip(1).collect();
    let arguments: Vec<&str> = arguments.iter().map(String::as_str).collect();
    match arguments[..] {
        [] => tables(),
        ["--growth"] => growth::print(),
        ["--peers", nexus] => peers::print(Path::new(nexus)),
        ["--instructions"] => instructions::print(),
        ["--markdown"] => markdown::print(),
        ["--markdown", "--instructions"] => markdown::instructions(),
        ["--call", call, file] => instructions::call(call, Path::new(file)),
        _ => {
            eprintln!("tools/bench says how this is used");
            return ExitCode::FAILURE;
        }
    }
    ExitCode::SUCCESS
}

fn tables() {
    reading::print();
    println!();
    records::print();
    println!();
    names::print();
    println!();
    growth::print();
}

/// Begins a line of a table, which is seen at once.
fn begin(name: &str) {
    print!("{name:36} ");
    std::io::stdout().flush().expect("a line");
}

/// The turns of a side so far.
struct Turns {
    best: f64,
    sum: f64,
}

impl Turns {
    fn new() -> Self {
        Self {
            best: f64::INFINITY,
            sum: 0.0,
        }
    }

    /// One turn more, unless there have been enough.
    fn turn<T>(&mut self, run: impl FnOnce() -> T) -> Option<T> {
        if self.sum > ENOUGH {
            return None;
        }
        let (seconds, value) = timed(run);
        self.sum += seconds;
        self.best = self.best.min(seconds);
        Some(value)
    }
}
