//! `--out`: files that are written whole, and never over what is read.

use std::fs;
use std::os::unix::fs::symlink;

use inputs::example::{RECORD, TEXT};

use crate::run::Folder;

fn broken() -> String {
    TEXT.replace('?', "x")
}

#[test]
#[cfg_attr(not(archive), ignore = "no archive; tools/test-calls makes it")]
fn records_are_written_whole() {
    let folder = Folder::new("out-whole");
    folder.put("a b.nex", TEXT);
    folder.put("żółć.nex", TEXT);
    folder.put("broken.nex", broken());
    folder.put("records/a b.nex.record", "what was there before");
    folder.put("records/broken.nex.record", "what was there before");
    let done = folder.run(["read", "--out=records", "a b.nex", "broken.nex", "żółć.nex"]);
    assert_eq!((done.status, done.out.as_str()), (1, ""));
    assert_eq!(done.err.matches("error[22]").count(), 1);
    let records = Folder(folder.0.join("records"));
    let names = ["a b.nex.record", "broken.nex.record", "żółć.nex.record"];
    assert_eq!(records.names(), names);
    let held = |name: &str| fs::read_to_string(records.0.join(name)).expect("a file");
    assert_eq!(held(names[0]), RECORD);
    assert_eq!(held(names[1]), "what was there before");
    assert_eq!(held(names[2]), RECORD);
}

/// What was there before is not written into: it may have another name.
#[test]
#[cfg_attr(not(archive), ignore = "no archive; tools/test-calls makes it")]
fn a_record_takes_the_place_of_another() {
    let folder = Folder::new("out-place");
    folder.put("a.nex", TEXT);
    let before = folder.put("records/a.nex.record", "what was there before");
    fs::hard_link(&before, folder.0.join("kept")).expect("a link");
    let done = folder.run(["read", "--out", "records", "a.nex"]);
    assert_eq!((done.status, done.err.as_str()), (0, ""));
    let held = |name: &str| fs::read_to_string(folder.0.join(name)).expect("a file");
    assert_eq!(held("records/a.nex.record"), RECORD);
    assert_eq!(held("kept"), "what was there before");
}

/// A file that cannot be put in its place leaves nothing behind, and the next is written.
#[test]
#[cfg_attr(not(archive), ignore = "no archive; tools/test-calls makes it")]
fn a_record_that_cannot_be_written() {
    let folder = Folder::new("out-taken");
    folder.put("a.nex", TEXT);
    folder.put("b.nex", TEXT);
    folder.put("records/a.nex.record/file", "in a folder");
    let done = folder.run(["read", "--out", "records", "a.nex", "b.nex"]);
    assert_eq!((done.status, done.out.as_str()), (2, ""));
    let message = "error: records/a.nex.record cannot be written: Is a directory\n";
    assert_eq!(done.err, message);
    let records = Folder(folder.0.join("records"));
    assert_eq!(records.names(), ["a.nex.record", "b.nex.record"]);
}

/// What is read is known by what it is, and not by its name.
#[test]
#[cfg_attr(not(archive), ignore = "no archive; tools/test-calls makes it")]
fn no_input_is_written_over() {
    let folder = Folder::new("out-inputs");
    folder.put("a.nex", TEXT);
    folder.put("other/b.nex", TEXT);
    symlink(
        "../other/b.nex",
        folder.put("r/x", "").with_file_name("a.nex.record"),
    )
    .expect("a link");
    let done = folder.run(["read", "--out", "r", "a.nex", "other/b.nex"]);
    assert_eq!(done.status, 2);
    assert!(
        done.err.contains("a.nex is not read: its result would be"),
        "{}",
        done.err
    );
    let held = |name: &str| fs::read_to_string(folder.0.join(name)).expect("a file");
    assert_eq!(held("other/b.nex"), TEXT);
    assert_eq!(held("r/b.nex.record"), RECORD);
}

/// Of two files of one name the first is read; that counts as wrong use, and the rest is done.
#[test]
#[cfg_attr(not(archive), ignore = "no archive; tools/test-calls makes it")]
fn two_files_of_one_name() {
    let folder = Folder::new("out-names");
    folder.put("one/a.nex", TEXT);
    folder.put("two/a.nex", broken());
    folder.put("b.nex", TEXT);
    let done = folder.run(["read", "--out", "r", "one/a.nex", "two/a.nex", "b.nex"]);
    let message = "error: two/a.nex is not read: r/a.nex.record is for one/a.nex, which has the \
        same name\n";
    assert_eq!((done.status, done.err.as_str()), (2, message));
    let records = Folder(folder.0.join("r"));
    assert_eq!(records.names(), ["a.nex.record", "b.nex.record"]);
    let held = fs::read_to_string(records.0.join("a.nex.record"));
    assert_eq!(held.expect("a file"), RECORD);
}
