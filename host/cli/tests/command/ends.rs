//! Files at the limit, pipes that nobody reads, and files that cannot be read or written.

use std::fs::{self, File};
use std::io::{BufRead, BufReader, Read};
use std::os::unix::fs::PermissionsExt;
use std::process::Stdio;

use inputs::MEGABYTE;
use inputs::example::{FORM, RECORD, TEXT};

use crate::run::{Folder, finished};

/// A megabyte of one row, of pages, of names and of labels: each is read, written, looked up in and
/// shown; with a byte more it is refused.
#[test]
#[cfg_attr(not(archive), ignore = "no archive; tools/test-calls makes it")]
fn files_of_a_megabyte() {
    let folder = Folder::new("ends-megabyte");
    let labels = inputs::labels(18_000);
    assert!(labels.len() > MEGABYTE * 9 / 10 && labels.len() <= MEGABYTE);
    let texts = [inputs::row(MEGABYTE), labels, inputs::names(95_000, false)];
    let names = ["taxon00000", "a", "caaa"];
    for (text, name) in texts.into_iter().zip(names) {
        let mut text = text;
        text.resize(MEGABYTE, b'\n');
        folder.put("long.nex", &text);
        let record = folder.run(["read", "long.nex"]);
        assert_eq!((record.status, record.err.as_str()), (0, ""));
        folder.put("long.record", &record.out);
        let cells = folder.run(["lookup", "long.record", name]);
        let expected = nexus::lookup(record.out.as_bytes(), name.as_bytes()).expect("cells");
        assert_eq!(cells.out.trim_end().as_bytes(), expected);
        let shown = folder.run(["show", "long.nex"]);
        assert_eq!((shown.status, shown.err.as_str()), (0, ""));
        assert!(shown.out.contains(name));
        let check = folder.run(["check", "long.nex"]);
        assert_eq!(check.out, "1 file: 1 read, 0 refused\n");
        text.push(b'\n');
        folder.put("long.nex", &text);
        let check = folder.run(["check", "--quiet", "long.nex"]);
        assert_eq!(check.status, 1);
        assert!(check.out.contains("1  [1] "), "{}", check.out);
    }
}

/// A line of a megabyte with its fault in the middle is cut around it.
#[test]
#[cfg_attr(not(archive), ignore = "no archive; tools/test-calls makes it")]
fn a_fault_in_a_line_of_a_megabyte() {
    let folder = Folder::new("ends-line");
    let half = "01 ".repeat(160_000);
    let text = format!(
        "#NEXUS BEGIN DATA; DIMENSIONS NTAX=1 NCHAR=640000; MATRIX żółw {half}x {half}; END;"
    );
    folder.put("long.nex", text);
    let mut command = folder.nexus(["read", "long.nex"]);
    let done = finished(command.env("COLUMNS", "50"), b"");
    assert_eq!(done.status, 1);
    let lines: Vec<&str> = done.err.lines().collect();
    assert_eq!(lines[1], " --> long.nex:1:480064");
    assert_eq!(
        lines[3],
        "1 | …01 01 01 01 01 01 01 x 01 01 01 01 01 01 01…"
    );
    assert_eq!(lines[4], "  |                       ^");
}

/// `nexus show long.nex | head -1` ends without a word.
#[test]
#[cfg_attr(not(archive), ignore = "no archive; tools/test-calls makes it")]
fn a_pipe_that_nobody_reads() {
    let folder = Folder::new("ends-pipe");
    folder.put("long.nex", inputs::row(MEGABYTE));
    folder.put("many.nex", inputs::names(90_000, false));
    let verbs = [
        &["show", "long.nex"][..],
        &["show", "many.nex"],
        &["read", "long.nex"],
    ];
    for arguments in verbs
        .into_iter()
        .chain([&["read", "--format=json", "long.nex"][..]])
    {
        let mut command = folder.nexus(arguments);
        command.stdout(Stdio::piped()).stderr(Stdio::piped());
        let mut child = command.spawn().expect("the command starts");
        let mut first = String::new();
        let mut out = BufReader::new(child.stdout.take().expect("a pipe"));
        // So much of a line as a reader has in hand, and then no more.
        out.by_ref().take(8).read_line(&mut first).expect("a line");
        drop(out);
        let output = child.wait_with_output().expect("the command ends");
        assert!(!first.is_empty());
        let said = String::from_utf8_lossy(&output.stderr);
        assert_eq!(
            (output.status.code(), &*said),
            (Some(0), ""),
            "{arguments:?}"
        );
    }
}

/// Messages that nobody reads are quiet too, and the status is that of the work.
#[test]
#[cfg_attr(not(archive), ignore = "no archive; tools/test-calls makes it")]
fn messages_that_nobody_reads() {
    let folder = Folder::new("ends-messages");
    folder.put("a.nex", "nothing");
    let mut command = folder.nexus(["check", "a.nex"]);
    command.stdout(Stdio::piped()).stderr(Stdio::piped());
    let mut child = command.spawn().expect("the command starts");
    drop(child.stderr.take());
    let output = child.wait_with_output().expect("the command ends");
    assert_eq!(output.status.code(), Some(1));
    let out = String::from_utf8_lossy(&output.stdout);
    assert!(out.starts_with("1 file: 0 read, 1 refused\n"), "{out}");
}

#[test]
#[cfg_attr(not(archive), ignore = "no archive; tools/test-calls makes it")]
fn a_full_device() {
    let folder = Folder::new("ends-full");
    folder.put("a.nex", TEXT);
    folder.put("b.nex", "nothing");
    for arguments in [
        &["read", "a.nex"][..],
        &["check", "a.nex"],
        &["check", "--quiet", "b.nex"],
        &["--help"],
    ] {
        let full = File::options().write(true).open("/dev/full");
        let mut command = folder.nexus(arguments);
        command
            .stdout(full.expect("/dev/full"))
            .stderr(Stdio::piped());
        let output = command.output().expect("the command ends");
        let said = String::from_utf8_lossy(&output.stderr);
        let expected = "nexus: standard output cannot be written: No space left on device\n";
        assert_eq!((output.status.code(), &*said), (Some(2), expected));
    }
}

/// Files that cannot be read are said and counted, and the others are read all the same.
#[test]
#[cfg_attr(not(archive), ignore = "no archive; tools/test-calls makes it")]
fn files_that_cannot_be_read() {
    let folder = Folder::new("ends-unreadable");
    folder.put("a.nex", TEXT);
    std::os::unix::fs::symlink("loop.nex", folder.0.join("loop.nex")).expect("a link");
    let done = folder.run([
        "read",
        "absent.nex",
        "a.nex/b.nex",
        "loop.nex",
        ".",
        "a.nex",
    ]);
    assert_eq!((done.status, done.out.as_str()), (2, RECORD));
    let reasons = [
        "absent.nex cannot be read: No such file or directory",
        "a.nex/b.nex cannot be read: Not a directory",
        "loop.nex cannot be read: Too many levels of symbolic links",
        ". cannot be read: Is a directory",
    ];
    let lines: Vec<String> = reasons.iter().map(|r| format!("error: {r}\n")).collect();
    assert_eq!(done.err, lines.concat());
    let check = folder.run(["check", "absent.nex", "."]);
    assert_eq!(check.out, "3 files: 1 read, 0 refused, 2 cannot be read\n");
    assert_eq!(check.status, 2);
    let closed = folder.put("closed.nex", TEXT);
    fs::set_permissions(&closed, fs::Permissions::from_mode(0o000)).expect("permissions");
    // Where this user may read everything, the file is read.
    let open = File::open(&closed).is_ok();
    let check = folder.run(["check", "closed.nex"]);
    assert_eq!(check.status, if open { 0 } else { 2 });
    assert_eq!(check.err.contains("Permission denied"), !open);
}

/// Standard input that comes slowly and in pieces is read to its end.
#[test]
#[cfg_attr(not(archive), ignore = "no archive; tools/test-calls makes it")]
fn standard_input() {
    let folder = Folder::new("ends-input");
    let record = finished(&mut folder.nexus(["read", "-"]), TEXT.as_bytes());
    assert_eq!((record.status, record.out.as_str()), (0, RECORD));
    let form = finished(&mut folder.nexus(["write", "-"]), RECORD.as_bytes());
    assert_eq!((form.status, form.out.as_str()), (0, FORM));
    let long = vec![b' '; 3 * MEGABYTE];
    let done = finished(&mut folder.nexus(["read", "-"]), &long);
    assert_eq!(done.status, 1);
    assert!(done.err.starts_with("error[1]: "), "{}", done.err);
}
