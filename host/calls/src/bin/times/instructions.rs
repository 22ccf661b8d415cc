//! Instructions of the calls, counted by callgrind: each call is made once, by this program on a
//! file, and only what happens within it is counted.

use std::fs::{self, File};
use std::hint::black_box;
use std::path::Path;

use calls::Folder;
use nexus::{TEXT_LIMIT, lookup, read_into, work_needed, write_into};

use crate::process::{installed, run, silent};
use crate::records::ABSENT;
use crate::{SHAPES, begin};

/// Seconds after which a count is given up.
const LIMIT: f64 = 120.0;

/// Each call: its name, and its function in the archive.
const CALLS: [(&str, &str); 3] = [
    ("read", "nexus_read"),
    ("write", "nexus_write"),
    ("absent", "nexus_lookup"),
];

pub fn print() {
    if !installed("valgrind") {
        println!("valgrind is not installed");
        return;
    }
    print!("{:36} {:>9} {:>9}", "instructions", "text", "record");
    for (call, _) in CALLS {
        print!("   {call:>10} {:>7}", "a byte");
    }
    println!();
    let folder = Folder::new("instructions");
    for (name, size, text) in SHAPES {
        begin(name);
        let text = text(*size);
        let record = nexus::read(&text).map_or(Vec::new(), |record| record.into_bytes());
        print!("{:9} {:9}", text.len(), record.len());
        for (count, bytes) in counts(&text, &record, &folder) {
            match count {
                Some(n) => print!("   {:9.2}M {:7.2}", n / 1e6, n / bytes as f64),
                None => print!("   {:>10} {:>7}", "-", "-"),
            }
        }
        println!();
    }
    println!(
        "millions, and a byte: of the text for read, of the record for write and absent, a lookup; -: the text \
        is refused, or {LIMIT} s were not enough"
    );
}

/// How many instructions each call takes on a text or its record, and how many bytes that has.
pub fn counts(text: &[u8], record: &[u8], folder: &Folder) -> [(Option<f64>, usize); 3] {
    CALLS.map(|(call, function)| {
        let bytes = if call == "read" { text } else { record };
        let file = folder.file("input", bytes);
        let counted = (!bytes.is_empty()).then(|| count(call, function, &file, folder));
        (counted.flatten(), bytes.len())
    })
}

/// How many instructions a call takes on a file.
fn count(call: &str, function: &str, file: &Path, folder: &Folder) -> Option<f64> {
    let said = folder.0.join("said");
    let own = std::env::current_exe().expect("the path of this program");
    let mut valgrind = silent("valgrind");
    valgrind.args(["--tool=callgrind", "--callgrind-out-file=/dev/null"]);
    valgrind.arg(format!("--toggle-collect={function}"));
    valgrind.arg(own).args(["--call", call]).arg(file);
    valgrind.stderr(File::create(&said).expect("a file"));
    let (_, ended) = run(&mut valgrind, LIMIT);
    let said = fs::read_to_string(said).expect("what valgrind says");
    let counted = said
        .lines()
        .find_map(|line| line.split("Collected :").nth(1));
    let counted = counted.and_then(|count| count.trim().parse().ok());
    ended.filter(|status| status.success()).and(counted)
}

/// Makes one call on a file: a text for reading, a record for the others.
pub fn call(call: &str, file: &Path) {
    let bytes = fs::read(file).expect("a file");
    match call {
        "read" => {
            let (mut work, mut buffer) = (vec![0; work_needed(&bytes)], vec![0; 64 * TEXT_LIMIT]);
            let _ = black_box(read_into(&bytes, &mut work, &mut buffer));
        }
        "write" => {
            let _ = black_box(write_into(&bytes, &mut vec![0; TEXT_LIMIT]));
        }
        _ => {
            let _ = black_box(lookup(&bytes, ABSENT));
        }
    }
}
