//! How the calls grow: their times for n and 2n, on every shape.

use std::hint::black_box;

use inputs::MEGABYTE;
use inputs::clock::timed;
use inputs::taxa::{self, Declared};
use nexus::{Record, longest_record, lookup, read_into, work_needed, write_into};

use crate::records::ABSENT;
use crate::{SHAPES, Shape, Turns, begin};

/// What linear time stays below, with some noise.
const STEEP: f64 = 2.2;

/// Seconds. Where a call that grows with the square of its input would take longer, a shape is timed
/// at a smaller size.
const LONGEST: f64 = 8.0;

/// Turns of a call on one size; three times as many where its growth is steep.
const TURNS: usize = 12;

/// The shapes besides those of the other tables. Of the last three the names lie together in the
/// tables by which names are told apart: that of the text's rows, and that of a record's.
const MORE: &[Shape] = &[
    ("10,000 taxa by 5", 10_000, |n| inputs::names(n, false)),
    ("10,000 declared", 10_000, |n| inputs::names(n, true)),
    ("10,000 declared, reversed", 10_000, |n| {
        taxa::text(&taxa::names(n, taxa::four_letters), 5, Declared::Reversed)
    }),
    ("60,000 declared, reversed", 60_000, |n| {
        taxa::text(&taxa::names(n, taxa::four_letters), 5, Declared::Reversed)
    }),
    ("100,000 taxa by 1", 100_000, |n| {
        taxa::text(&taxa::names(n, taxa::three_signs), 1, Declared::No)
    }),
    ("100,000 declared, reversed", 100_000, |n| {
        taxa::text(&taxa::names(n, taxa::three_signs), 1, Declared::Reversed)
    }),
    ("30,000 names of a long prefix", 30_000, |n| {
        taxa::text(&taxa::names(n, taxa::species), 1, Declared::No)
    }),
    ("15,000 of them declared", 15_000, |n| {
        taxa::text(&taxa::names(n, taxa::species), 1, Declared::InOrder)
    }),
    ("15,000 declared, reversed", 15_000, |n| {
        taxa::text(&taxa::names(n, taxa::species), 1, Declared::Reversed)
    }),
    ("60,000 differ in the last byte", 60_000, |n| {
        taxa::text(&taxa::names(n, taxa::last_byte), 5, Declared::No)
    }),
    ("60,000 of them declared", 60_000, |n| {
        taxa::text(&taxa::names(n, taxa::last_byte), 5, Declared::InOrder)
    }),
    ("20,000 quoted names, declared", 20_000, |n| {
        taxa::text(&taxa::names(n, taxa::quoted), 5, Declared::Reversed)
    }),
    ("40,000 names with a comment", 40_000, |n| {
        taxa::text(&taxa::names(n, taxa::commented), 5, Declared::No)
    }),
    ("10,000 taxa in 4 pages", 10_000, |n| {
        inputs::pages(n, 40, 10)
    }),
    ("40,000 taxa in 2 pages", 40_000, |n| inputs::pages(n, 2, 1)),
    ("50 taxa in 1,500 pages", 1_500, |n| inputs::pages(50, n, 1)),
    ("CHARLABELS of 40,000", 40_000, inputs::label_list),
    ("STATELABELS of 30,000", 30_000, inputs::state_labels),
    (
        "TYPESET, a mixed vector of 150,000",
        150_000,
        inputs::mixed_vector,
    ),
    ("TYPESET, 75,000 ranges", 150_000, inputs::ranges),
    ("TYPESET, 60,000 sets", 60_000, inputs::sets),
    ("colliding names, 120,000", 120_000, |n| {
        taxa::text(&taxa::colliding(n, 4 * n + 1), 1, Declared::No)
    }),
    ("colliding names, 70,000 declared", 70_000, |n| {
        taxa::text(&taxa::colliding(n, 4 * n + 1), 1, Declared::InOrder)
    }),
    ("names that crowd a record, 110,000", 110_000, |n| {
        taxa::text(&taxa::crowding(n), 1, Declared::No)
    }),
];

pub fn print() {
    println!(
        "{:36} {:>9} {:>9} {:>9} {:>7}   {:>9} {:>7}   {:>9} {:>7}",
        "growth", "2n", "bytes", "read", "growth", "write", "growth", "absent", "growth"
    );
    let mut steep = Vec::new();
    for shape in shapes() {
        line(shape, &mut steep);
    }
    println!(
        "bytes of the text of 2n; read, write, and absent, a lookup: milliseconds for 2n, best of {TURNS} \
        turns;\ngrowth: best time for 2n / best time for n"
    );
    match steep.is_empty() {
        true => println!("no growth is above {STEEP}"),
        false => println!("growth above {STEEP}:\n    {}", steep.join("\n    ")),
    }
}

/// What a shape was timed at, and what each call took: seconds for 2n, and its growth.
pub struct Grown {
    whole: usize,
    size: usize,
    bytes: usize,
    pub calls: [Option<(f64, f64)>; 3],
}

/// All shapes.
pub fn shapes() -> impl Iterator<Item = &'static Shape> {
    SHAPES.iter().chain(MORE)
}

/// Times a shape. A text that is refused has no record for the calls that take one.
pub fn measured(shape: &Shape) -> Grown {
    let (name, _, text) = shape;
    let whole = largest(shape);
    let size = within_time(*text, whole);
    let (mut less, mut more) = (Input::of(text(size / 2)), Input::of(text(size)));
    assert!(more.text.len() <= MEGABYTE, "{name}");
    let has_record = more.record.is_some();
    let calls = CALLS.map(|call| {
        let made = call == Call::Read || has_record;
        made.then(|| grown(call, &mut less, &mut more))
    });
    Grown {
        whole,
        size,
        bytes: more.text.len(),
        calls,
    }
}

/// The line of a shape; a growth that is steep is named.
fn line(shape: &Shape, steep: &mut Vec<String>) {
    begin(shape.0);
    let grown = measured(shape);
    print!("{:9} {:9}", grown.size, grown.bytes);
    let (mut left, mut above) = (Vec::new(), Vec::new());
    for (call, times) in CALLS.iter().zip(grown.calls) {
        let Some((seconds, growth)) = times else {
            print!(" {:>9} {:>7}  ", "-", "-");
            continue;
        };
        print!(" {:9.2} {growth:7.2}  ", seconds * 1e3);
        if growth > STEEP {
            above.push(format!("{} {growth:.2}", call.name()));
        }
        let times = (grown.whole as f64 / grown.size as f64).powf(growth.log2());
        left.push(format!("{} {:.1} s", call.name(), seconds * times));
    }
    println!();
    if !above.is_empty() {
        steep.push(format!("{}: {}", shape.0, above.join(", ")));
    }
    if grown.size < grown.whole {
        println!(
            "    (1/{} of it; by its growth the whole takes: {})",
            grown.whole / grown.size,
            left.join(", ")
        );
    }
}

/// 2n, where such a text is no longer than a text may be, and else n.
fn largest((_, size, text): &Shape) -> usize {
    match text(2 * size).len() <= MEGABYTE {
        true => 2 * size,
        false => *size,
    }
}

/// The largest size, by halves of the whole, at which no call takes too long.
fn within_time(text: fn(usize) -> Vec<u8>, whole: usize) -> usize {
    let mut size = whole / 16;
    while size < whole {
        let (seconds, mut input) = timed(|| Input::of(text(size)));
        let calls = CALLS.map(|call| timed(|| input.call(call)).0);
        if 4.0 * calls.into_iter().fold(seconds / 2.0, f64::max) > LONGEST {
            return size;
        }
        size *= 2;
    }
    whole
}

/// A call's best time for more, and its growth.
fn grown(call: Call, less: &mut Input, more: &mut Input) -> (f64, f64) {
    let (mut half, mut whole) = (Turns::new(), Turns::new());
    for turn in 0..3 * TURNS {
        if turn >= TURNS && whole.best <= STEEP * half.best {
            break;
        }
        half.turn(|| less.call(call));
        whole.turn(|| more.call(call));
    }
    (whole.best, whole.best / half.best)
}

#[derive(Clone, Copy, Eq, PartialEq)]
enum Call {
    Read,
    Write,
    Lookup,
}

const CALLS: [Call; 3] = [Call::Read, Call::Write, Call::Lookup];

impl Call {
    fn name(self) -> &'static str {
        match self {
            Self::Read => "read",
            Self::Write => "write",
            Self::Lookup => "absent",
        }
    }
}

/// A text, its record where it is read, and the memory that the calls are lent.
struct Input {
    text: Vec<u8>,
    record: Option<Vec<u8>>,
    work: Vec<u32>,
    buffer: Vec<u8>,
}

impl Input {
    fn of(text: Vec<u8>) -> Self {
        let record = nexus::read(&text).ok().map(Record::into_bytes);
        let room = longest_record(text.len()).max(MEGABYTE);
        Self {
            work: vec![0; work_needed(&text)],
            buffer: vec![0; room],
            text,
            record,
        }
    }

    /// Makes a call. The form of a record may be too long to be written, which is found out only once
    /// it was measured.
    fn call(&mut self, call: Call) {
        let record = self.record.as_deref().unwrap_or_default();
        let buffer = &mut self.buffer;
        match call {
            Call::Read => {
                let _ = black_box(read_into(black_box(&self.text), &mut self.work, buffer));
            }
            Call::Write => {
                let _ = black_box(write_into(black_box(record), buffer));
            }
            Call::Lookup => {
                let _ = black_box(lookup(black_box(record), ABSENT));
            }
        }
    }
}
