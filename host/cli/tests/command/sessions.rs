//! Sessions that are kept: lines `$ COMMAND`, each with all that is printed behind it, and the exit
//! status where that is not 0. They stand in tests/sessions and, one for each refusal, in
//! tests/refused, beside the files that they use.
//!
//! NEXUS_SESSIONS=write writes what is printed into them, in place of what they say. Read the
//! difference before it is kept.

use std::collections::BTreeSet;
use std::fs;
use std::path::{Path, PathBuf};

use crate::run::{Folder, NEXUS, finished, plain};

/// The commands of a session.
fn commands(session: &str) -> impl Iterator<Item = &str> {
    session.lines().filter_map(|line| line.strip_prefix("$ "))
}

/// The session with all that its commands print in the folder.
fn played(session: &str, folder: &Folder) -> String {
    let program = Path::new(NEXUS).parent().expect("a folder");
    let path = std::env::var("PATH").unwrap_or_default();
    let path = format!("{}:{path}", program.display());
    let mut played = String::new();
    for command in commands(session) {
        let mut shell = plain("sh");
        let joined = format!("{{ {command}\n}} 2>&1");
        shell.arg("-c").arg(joined).current_dir(&folder.0);
        let done = finished(shell.env("PATH", &path), b"");
        played.push_str(&format!("$ {command}\n{}", done.out));
        if done.status != 0 {
            played.push_str(&format!("[exit status {}]\n", done.status));
        }
    }
    played
}

fn tests() -> PathBuf {
    Path::new(env!("CARGO_MANIFEST_DIR")).join("tests")
}

/// The files of a folder, in order.
fn files_of(folder: &Path) -> Vec<PathBuf> {
    let entries = fs::read_dir(folder).expect("a folder");
    let mut files: Vec<PathBuf> = entries.map(|e| e.expect("an entry").path()).collect();
    files.sort();
    files
}

/// Are sessions written anew?
fn rewrites() -> bool {
    std::env::var("NEXUS_SESSIONS").is_ok_and(|value| value == "write")
}

/// Copies the files that the commands of a session name, or makes them.
fn supply(session: &str, folder: &Folder, files: &[PathBuf], made: &[Made]) {
    let named = |name: &str| commands(session).any(|command| command.contains(name));
    for file in files {
        let name = file.file_name().expect("a name").to_string_lossy();
        if named(&name) {
            fs::copy(file, folder.0.join(&*name)).expect("a copy");
        }
    }
    for (name, make) in made.iter().filter(|(name, _)| named(name)) {
        folder.put(name, make());
    }
}

/// A file that is made for a session, being long.
type Made = (&'static str, fn() -> Vec<u8>);

/// Plays all sessions of a folder, each with the files that its commands name, and compares; the
/// names of the sessions and what is printed in them.
#[track_caller]
fn hold(name: &str, made: &[Made]) -> Vec<(String, String)> {
    let (sessions, files): (Vec<_>, Vec<_>) = files_of(&tests().join(name))
        .into_iter()
        .partition(|file| file.extension().is_some_and(|ending| ending == "txt"));
    let mut held = Vec::new();
    for session in sessions {
        let stem = session.file_stem().expect("a name").to_string_lossy();
        let folder = Folder::new(&format!("{name}-{stem}"));
        let kept = fs::read_to_string(&session).expect("a session");
        supply(&kept, &folder, &files, made);
        let played = played(&kept, &folder);
        if rewrites() {
            fs::write(&session, &played).expect("a session is written");
        } else {
            assert_eq!(played, kept, "{}", session.display());
        }
        held.push((stem.into_owned(), played));
    }
    held
}

/// The sessions in a page: what is indented by four blanks and begins with a command of these. A
/// line without anything in it is a part of the session where another indented one follows.
fn sessions_in(page: &str) -> Vec<String> {
    let mut sessions: Vec<String> = Vec::new();
    let (mut inside, mut empty) = (false, 0);
    for line in page.lines() {
        let begins = line.starts_with("    $ nexus ") || line.starts_with("    $ cat bears.nex");
        match (line.strip_prefix("    "), sessions.last_mut()) {
            (Some(line), Some(session)) if inside => {
                session.push_str(&"\n".repeat(empty));
                session.push_str(&format!("{line}\n"));
            }
            (Some(line), _) if begins => sessions.push(format!("{line}\n")),
            _ if line.is_empty() => {
                empty += 1;
                continue;
            }
            _ => {}
        }
        inside = line.starts_with("    ") && (inside || begins);
        empty = 0;
    }
    sessions
}

/// A session as it stands in a page.
fn indented(session: &str) -> String {
    let lines = session.lines().map(|line| match line {
        "" => "\n".to_string(),
        line => format!("    {line}\n"),
    });
    lines.collect()
}

/// What README says that the command prints, it prints.
#[test]
#[cfg_attr(not(archive), ignore = "no archive; tools/test-calls makes it")]
fn readme() {
    let path = Path::new(env!("CARGO_MANIFEST_DIR")).join("../../README.md");
    let page = fs::read_to_string(&path).expect("README.md");
    let folder = Folder::new("sessions-readme");
    let files = files_of(&tests().join("sessions"));
    let mut written = page.clone();
    let sessions = sessions_in(&page);
    assert!(sessions.len() >= 4);
    for session in sessions {
        supply(&session, &folder, &files, &[]);
        let played = played(&session, &folder);
        let place = indented(&session);
        assert!(written.contains(&place), "{session}");
        written = written.replacen(&place, &indented(&played), 1);
        assert!(rewrites() || played == session, "{played}");
    }
    if rewrites() {
        fs::write(&path, written).expect("README.md is written");
    }
}

#[test]
#[cfg_attr(not(archive), ignore = "no archive; tools/test-calls makes it")]
fn verbs() {
    let held = hold("sessions", &[]);
    let mut names: Vec<&str> = cli::verbs::all().map(|verb| verb.name).collect();
    names.push("usage");
    names.sort_unstable();
    assert!(held.iter().map(|(name, _)| name.as_str()).eq(names));
}

/// A text of one byte too many.
fn long_text() -> Vec<u8> {
    let mut text = inputs::example::TEXT.as_bytes().to_vec();
    text.resize(inputs::MEGABYTE + 1, b' ');
    text
}

/// A record whose form is too long.
fn long_record() -> Vec<u8> {
    let name = format!("name={}", "'".repeat(inputs::MEGABYTE / 2));
    let record = inputs::example::RECORD.replace("name=C", &name);
    record.into_bytes()
}

/// Each number has a session, in which it is met. No file is refused by 2 or 30: they are about
/// memory that is lent, and the command lends enough.
#[test]
#[cfg_attr(not(archive), ignore = "no archive; tools/test-calls makes it")]
fn refusals() {
    let held = hold(
        "refused",
        &[("01-long.nex", long_text), ("32-long.record", long_record)],
    );
    for (number, played) in &held {
        let number = number.trim_start_matches('0');
        let met = played.matches(&format!("error[{number}]: ")).count();
        let all = played.matches("error[").count();
        let asked = played.lines().filter(|l| l.starts_with("$ ")).count();
        assert!(met == asked && all == asked, "{number}: {played}");
        let refused = played.matches("[exit status 1]").count();
        assert_eq!(refused, asked, "{number}");
    }
    let numbers: BTreeSet<u32> = held.iter().map(|(n, _)| n.parse().expect("n")).collect();
    let expected = (1..=33).filter(|number| ![2, 30].contains(number));
    assert_eq!(numbers, expected.collect());
}
