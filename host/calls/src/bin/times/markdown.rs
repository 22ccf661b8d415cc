//! The tables of docs/TIMES.md.

use std::io::Write;

use calls::Folder;

use crate::process::installed;
use crate::records::Times;
use crate::{ENOUGH, SHAPES, TURNS, growth, instructions, reading};

pub fn print() {
    times();
    println!();
    growth();
    println!();
    instructions();
}

/// The three calls, and rove's `parse`.
fn times() {
    println!(
        "## The three calls\n\nEach call on each text or its record, and rove's `parse` on the text: best of {TURNS} turns, or of those \
        that {ENOUGH} s hold.\n"
    );
    head(
        "input",
        &[
            "bytes",
            "read, ms",
            "read, ns a byte",
            "Rust, ns a byte",
            "Rust / read",
            "record, bytes",
            "write, ns a byte",
            "lookup, ns a byte",
        ],
    );
    for (name, size, text) in SHAPES {
        begin(name);
        let text = text(*size);
        let best = reading::best(name, &text);
        let a_byte = |seconds: f64| figure(seconds * 1e9 / text.len() as f64);
        cells(&[
            grouped(text.len()),
            figure(best.proved * 1e3),
            a_byte(best.proved),
            a_byte(best.rust),
            figure(best.rust / best.proved),
        ]);
        match nexus::read(&text) {
            Ok(record) => {
                let bytes = record.as_bytes();
                let best = Times::best(name, bytes);
                let a_byte = |seconds: f64| figure(seconds * 1e9 / bytes.len() as f64);
                cells(&[
                    grouped(bytes.len()),
                    a_byte(best.write),
                    a_byte(best.absent),
                ]);
            }
            Err(_) => cells(&["refused".into(), "-".into(), "-".into()]),
        }
        println!();
    }
    println!(
        "\nread is lent room for any record. write and lookup: nanoseconds a byte of the record; the lookup is of a name that no \
        taxon has."
    );
}

/// How the calls grow.
fn growth() {
    println!(
        "## Growth\n\nThe time for 2n by that for n; 2.2 and less is linear, with some noise.\n"
    );
    head("input", &["read", "write", "lookup"]);
    for shape in growth::shapes() {
        begin(shape.0);
        let growths = growth::measured(shape).calls.map(|call| match call {
            Some((_, growth)) => format!("{growth:.1}"),
            None => "-".to_string(),
        });
        cells(&growths);
        println!();
    }
}

/// Instructions of the calls.
pub fn instructions() {
    if !installed("valgrind") {
        println!("valgrind is not installed");
        return;
    }
    println!(
        "## Instructions\n\nMillions of instructions within each call, and how many a byte, counted by callgrind. They do not \
        hang on what else a machine does.\n"
    );
    head(
        "input",
        &["read", "a byte", "write", "a byte", "lookup", "a byte"],
    );
    let folder = Folder::new("instructions");
    for (name, size, text) in SHAPES {
        begin(name);
        let text = text(*size);
        let record = nexus::read(&text).map_or(Vec::new(), |record| record.into_bytes());
        for (count, bytes) in instructions::counts(&text, &record, &folder) {
            match count {
                Some(n) => cells(&[figure(n / 1e6), figure(n / bytes as f64)]),
                None => cells(&["-".into(), "-".into()]),
            }
        }
        println!();
    }
    println!(
        "\nread: a byte of the text; write, and the lookup of a name that no taxon has: of the record."
    );
}

/// The head of a table: numbers stand to the right.
fn head(first: &str, others: &[&str]) {
    println!("| {first} | {} |", others.join(" | "));
    println!("|---|{}", "---:|".repeat(others.len()));
}

/// Begins a row, which is seen at once.
fn begin(name: &str) {
    print!("| {name} |");
    std::io::stdout().flush().expect("a row");
}

fn cells(cells: &[String]) {
    print!(" {} |", cells.join(" | "));
}

/// A number in as many digits as say something.
fn figure(x: f64) -> String {
    match x {
        x if x >= 100.0 => grouped(x.round() as usize),
        x if x >= 1.0 => format!("{x:.1}"),
        _ => format!("{x:.2}"),
    }
}

/// A number with a comma before each three digits.
fn grouped(n: usize) -> String {
    let digits = n.to_string();
    let mut grouped = String::new();
    for (i, digit) in digits.chars().enumerate() {
        if i > 0 && (digits.len() - i).is_multiple_of(3) {
            grouped.push(',');
        }
        grouped.push(digit);
    }
    grouped
}
