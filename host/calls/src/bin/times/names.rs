//! How long it takes to judge that the names of many taxa differ: the calls on their records beside
//! the reading of the text, in the same run.

use std::hint::black_box;

use nexus::{longest_record, read_into, work_needed};

use crate::records::Times;
use crate::{TURNS, Turns, begin};

/// What a call may take.
enum Limit {
    /// So many times as long as reading the text.
    Readings(f64),
    Seconds(f64),
}

/// An input: a text, or a record that no text has room for.
enum Input {
    Text(Vec<u8>),
    Record(Vec<u8>),
}

pub fn print() {
    println!(
        "{:36} {:>9} {:>9} {:>9} {:>9}   {:>12} {:>12}   limit",
        "many names", "bytes", "read", "write", "absent", "write/read", "absent/read"
    );
    line(
        "10,000 taxa by 50",
        Input::Text(inputs::rows(10_000, 50)),
        Limit::Readings(3.0),
    );
    line(
        "60,000 taxa by 5",
        Input::Text(inputs::names(60_000, false)),
        Limit::Readings(5.0),
    );
    line(
        "200,000 taxa by 1",
        Input::Record(inputs::record(200_000, 1)),
        Limit::Seconds(2.0),
    );
    println!(
        "bytes of the record; read: the time for the text; write, and absent, a lookup: those for its \
        record; milliseconds, best of turns as above"
    );
}

fn line(name: &str, input: Input, limit: Limit) {
    begin(name);
    let (read, record) = match input {
        Input::Text(text) => {
            let (seconds, record) = reading(&text);
            (Some(seconds), record)
        }
        Input::Record(record) => (None, record),
    };
    let times = Times::best(name, &record);
    let milliseconds = |seconds: f64| format!("{:.2}", seconds * 1e3);
    let over = |seconds: f64| read.map_or("-".to_string(), |read| format!("{:.2}", seconds / read));
    let longest = times.write.max(times.absent);
    let (limit, kept) = match (limit, read) {
        (Limit::Readings(most), Some(read)) => (format!("{most} readings"), longest <= most * read),
        (Limit::Readings(_), None) => unreachable!("the text is read"),
        (Limit::Seconds(most), _) => (format!("{most} s"), longest <= most),
    };
    println!(
        "{:9} {:>9} {:>9} {:>9}   {:>12} {:>12}   {limit}, {}",
        record.len(),
        read.map_or("-".to_string(), milliseconds),
        milliseconds(times.write),
        milliseconds(times.absent),
        over(times.write),
        over(times.absent),
        if kept { "kept" } else { "not kept" }
    );
}

/// The best time for reading a text, and its record.
fn reading(text: &[u8]) -> (f64, Vec<u8>) {
    let record = nexus::read(text).expect("the text is read").into_bytes();
    let (mut work, mut buffer) = (
        vec![0; work_needed(text)],
        vec![0; longest_record(text.len())],
    );
    let mut turns = Turns::new();
    for _ in 0..TURNS {
        turns.turn(|| read_into(black_box(text), &mut work, &mut buffer));
    }
    (turns.best, record)
}
