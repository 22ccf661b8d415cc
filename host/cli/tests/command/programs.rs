//! `--format json`: what it says is what the library says.

use std::ffi::OsStr;
use std::os::unix::ffi::OsStrExt;

use nexus::{Cell, Record, Refusal};

use crate::json::Json;
use crate::run::Folder;

/// Names and labels with all that must be escaped in JSON or in a record.
const NAMES: &str = "#NEXUS BEGIN DATA; DIMENSIONS NTAX=4 NCHAR=3; FORMAT SYMBOLS=\"01\" GAP=-;
CHARSTATELABELS 1 '\"quoted\"' / 'back\\slash' '\u{1b}[31m', 3 '日本\u{301}\u{2028}🌿';
MATRIX 'two\nlines' 0?- a 1{01}(01) 'tab\tand\u{1}' 010 ż 111; END;";

#[track_caller]
fn states(json: &Json) -> Vec<u64> {
    json.list().iter().map(Json::number).collect()
}

/// Is this the cell?
fn is_cell(json: &Json, cell: Cell<'_>) -> bool {
    let numbers = |states: nexus::States<'_>| -> Vec<u64> {
        states.map(|state| state.number() as u64).collect()
    };
    match cell {
        Cell::State(state) => json.number() == state.number() as u64,
        Cell::Missing => json.text() == "missing",
        Cell::Gap => json.text() == "gap",
        Cell::Uncertain(set) => states(json.get("uncertain")) == numbers(set),
        Cell::Polymorphic(set) => states(json.get("polymorphic")) == numbers(set),
    }
}

/// Holds an object against a record, in every part.
#[track_caller]
fn hold(json: &Json, record: &Record) {
    assert_eq!(json.get("datatype").text(), record.data_type().word());
    assert_eq!(json.get("symbols").text(), record.symbols().as_str());
    let taxa = json.get("taxa").list();
    assert_eq!(taxa.len(), record.taxon_count());
    for (json, taxon) in taxa.iter().zip(record.taxa()) {
        assert_eq!(json.get("number").number(), taxon.number().get() as u64);
        assert_eq!(json.get("name").text(), taxon.name().to_string());
        let cells = json.get("cells").list();
        assert_eq!(cells.len(), record.character_count());
        assert!(
            cells
                .iter()
                .zip(taxon.cells())
                .all(|(json, cell)| is_cell(json, cell))
        );
    }
    let characters = json.get("characters").list();
    assert_eq!(characters.len(), record.character_count());
    for (json, character) in characters.iter().zip(record.characters()) {
        assert_eq!(json.get("number").number(), character.number().get() as u64);
        match character.label() {
            None => assert_eq!(*json.get("label"), Json::Null),
            Some(label) => assert_eq!(json.get("label").text(), label.to_string()),
        }
        assert_eq!(json.get("order").text(), character.ordering().word());
        let states: Vec<&str> = json.get("states").list().iter().map(Json::text).collect();
        let labels: Vec<String> = character.state_labels().map(|l| l.to_string()).collect();
        assert_eq!(states, labels);
    }
}

#[track_caller]
fn hold_refusal(json: &Json, refusal: Refusal) {
    assert_eq!(json.get("status").text(), "refused");
    assert_eq!(json.get("number").number(), u64::from(refusal.number));
    assert_eq!(json.get("line").number(), refusal.line as u64);
    assert_eq!(json.get("column").number(), refusal.column as u64);
    assert_eq!(json.get("message").text(), refusal.sentence());
}

#[test]
#[cfg_attr(not(archive), ignore = "no archive; tools/test-calls makes it")]
fn names_and_labels() {
    let folder = Folder::new("programs-names");
    folder.put("a \"b\" \\.nex", NAMES);
    let done = folder.run(["read", "--format", "json", "a \"b\" \\.nex"]);
    assert_eq!((done.status, done.err.as_str()), (0, ""));
    let json = Json::parse(done.out.trim_end());
    assert_eq!(json.get("file").text(), "a \"b\" \\.nex");
    assert_eq!(json.get("status").text(), "read");
    let record = nexus::read(NAMES.as_bytes()).expect("a record");
    hold(json.get("record"), &record);
    folder.put("a.record", record.as_bytes());
    for taxon in record.taxa() {
        let name = taxon.name().to_string();
        let done = folder.run(["lookup", "a.record", "--format=json", &name]);
        let json = Json::parse(done.out.trim_end());
        assert_eq!(json.get("name").text(), name);
        let cells = json.get("cells").list();
        assert!(
            cells
                .iter()
                .zip(taxon.cells())
                .all(|(json, cell)| is_cell(json, cell))
        );
    }
}

/// Puts the texts into files of a folder; their names, which rise.
fn put_all(folder: &Folder, texts: &[Vec<u8>]) -> Vec<String> {
    let named = texts.iter().enumerate().map(|(number, text)| {
        let name = format!("{number:03}.nex");
        folder.put(&name, text);
        name
    });
    named.collect()
}

/// On generated and damaged texts `read` and `check` say what the library says, file by file. So
/// `check`, which lends no buffer for records, refuses what `read` refuses.
#[test]
#[cfg_attr(not(archive), ignore = "no archive; tools/test-calls makes it")]
fn generated_texts() {
    let folder = Folder::new("programs-generated");
    let texts: Vec<Vec<u8>> = (0..400).map(|n| oracle::generate::text(71, n)).collect();
    let names = put_all(&folder, &texts);
    let check = folder.run(["check", "--format", "json", "."]);
    let read = folder.run(["read"].into_iter().chain(names.iter().map(String::as_str)));
    assert_eq!((check.status, check.err.as_str()), (1, ""));
    assert_eq!(read.status, 1);
    let lines = Json::lines(&check.out);
    assert_eq!(lines.len(), texts.len() + 1);
    let mut records = 0;
    for ((text, line), name) in texts.iter().zip(&lines).zip(&names) {
        assert_eq!(line.get("file").text(), format!("./{name}"));
        match nexus::read(text) {
            Ok(_) => {
                records += 1;
                assert_eq!(line.get("status").text(), "read");
            }
            Err(refusal) => hold_refusal(line, refusal),
        }
    }
    assert!((80..320).contains(&records), "{records} are read");
    let summary = lines[texts.len()].get("summary");
    assert_eq!(summary.get("files").number(), texts.len() as u64);
    assert_eq!(summary.get("read").number(), records);
    assert_eq!(
        summary.get("refused").number(),
        texts.len() as u64 - records
    );
    assert_eq!(read.out.matches("datatype=").count() as u64, records);
    assert_eq!(
        read.err.matches("error[").count() as u64,
        texts.len() as u64 - records
    );
}

/// All records of generated texts are what the library has.
#[test]
#[cfg_attr(not(archive), ignore = "no archive; tools/test-calls makes it")]
fn generated_records() {
    let folder = Folder::new("programs-records");
    let texts = (0..200).map(|n| oracle::generate::sound_pair(72, n).1.into_bytes());
    let texts: Vec<Vec<u8>> = texts.collect();
    let names = put_all(&folder, &texts);
    let arguments = ["read", "--format=json"].into_iter();
    let done = folder.run(arguments.chain(names.iter().map(String::as_str)));
    assert_eq!((done.status, done.err.as_str()), (0, ""));
    let lines = Json::lines(&done.out);
    assert_eq!(lines.len(), texts.len());
    for (text, line) in texts.iter().zip(&lines) {
        hold(line.get("record"), &nexus::read(text).expect("a record"));
    }
}

/// A name that is not UTF-8 has U+FFFD in JSON and in messages, and the file is read.
#[test]
#[cfg_attr(not(archive), ignore = "no archive; tools/test-calls makes it")]
fn a_file_name_that_is_not_utf_8() {
    let folder = Folder::new("programs-bytes");
    let name = OsStr::from_bytes(b"b\xe4r \x1b[31m.nex");
    folder.put(name, inputs::example::TEXT);
    let arguments = [OsStr::new("check"), OsStr::new("--format=json"), name];
    let done = folder.run(arguments);
    let lines = Json::lines(&done.out);
    assert_eq!(lines[0].get("file").text(), "b\u{fffd}r \u{1b}[31m.nex");
    assert_eq!(lines[0].get("status").text(), "read");
    folder.put(name, "nothing");
    let done = folder.run([OsStr::new("check"), name]);
    assert!(
        done.err.contains("--> b\u{fffd}r ␛[31m.nex:1:1\n"),
        "{}",
        done.err
    );
}
