//! Ten thousand small files, and how long they take in how much memory.

use std::fs;
use std::process::{Child, Stdio};
use std::thread;
use std::time::{Duration, Instant};

use inputs::example::TEXT;

use crate::run::Folder;

const FILES: usize = 10_000;

/// The most memory that a process has had so far, in kibibytes.
fn peak(child: &Child) -> Option<usize> {
    let status = fs::read_to_string(format!("/proc/{}/status", child.id())).ok()?;
    let line = status
        .lines()
        .find_map(|line| line.strip_prefix("VmHWM:"))?;
    line.trim().strip_suffix(" kB")?.parse().ok()
}

/// What `check` prints of the folder `in`, how long it takes, and the most memory that it had.
fn checked(folder: &Folder) -> (String, Duration, usize) {
    let mut command = folder.nexus(["check", "--quiet", "in"]);
    command.stdout(Stdio::piped()).stderr(Stdio::null());
    let start = Instant::now();
    let mut child = command.spawn().expect("the command starts");
    let mut most = 0;
    while child.try_wait().expect("a status").is_none() {
        most = peak(&child).unwrap_or(0).max(most);
        thread::sleep(Duration::from_micros(200));
    }
    let time = start.elapsed();
    let output = child.wait_with_output().expect("the command ends");
    let printed = String::from_utf8(output.stdout).expect("UTF-8");
    (printed, time, most)
}

#[test]
#[cfg_attr(not(archive), ignore = "no archive; tools/test-calls makes it")]
fn ten_thousand_files() {
    let folder = Folder::new("many");
    let long = inputs::row(inputs::MEGABYTE);
    let cores = thread::available_parallelism().map_or(1, |cores| cores.get());
    for core in 0..cores {
        folder.put(format!("in/long{core}.nex"), &long);
    }
    let (_, _, few) = checked(&folder);
    let broken = TEXT.replace('?', "x");
    for number in 0..FILES {
        let text = if number % 100 == 7 { &broken } else { TEXT };
        let name = format!("in/{number}.nex");
        fs::write(folder.0.join(name), text).expect("a file");
    }
    let (printed, time, most) = checked(&folder);
    println!(
        "{FILES} files: {} ms, {most} KiB at most; a file of a megabyte a core: {few} KiB",
        time.as_millis()
    );
    let total = FILES + cores;
    let read = total - FILES / 100;
    let expected = format!("{}: {} read, 100 refused\n", grouped(total), grouped(read));
    let first = printed.lines().next().unwrap_or_default();
    assert_eq!(format!("{first}\n"), expected.replacen(':', " files:", 1));
    assert!(printed.contains("   100  [22] "), "{printed}");
    // It takes less than half a second where nothing else runs, and some where much does.
    assert!(time < Duration::from_secs(30), "{time:?}");
    // Each core has a text of a megabyte and sixteen of work memory; the rest is for the program,
    // the names of the files, and what waits to be said.
    assert!(most > 0 && most < (20 * cores + 16) * 1024, "{most} KiB");
}

fn grouped(number: usize) -> String {
    format!("{},{:03}", number / 1_000, number % 1_000)
}
