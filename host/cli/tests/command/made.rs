//! tools/nexus makes the archive where it is not there, and again where a source is newer, by
//! tools/build. In the place of `rt` and `cargo` stand programs that only say what they were asked.

use std::fs::{self, File, Permissions};
use std::os::unix::fs::PermissionsExt;
use std::path::Path;
use std::time::{Duration, SystemTime};

use crate::run::{Done, Folder, finished, plain};

const SCRIPT: &str = include_str!("../../../../tools/nexus");
const BUILD: &str = include_str!("../../../../tools/build");

const ARCHIVE: &str = "target/staticlib/libnexus_c.a";

/// Files and folders that are older than the archive, if it is up to date.
const SOURCES: [&str; 6] = [
    "crates/read/src/lib.rt",
    "crates/read/src",
    "crates/read/proofs/Laws.antt",
    "crates/read/proofs",
    "crates/read",
    "crates.txt",
];

/// What is said on standard error where the archive is made.
const MADE: &str = "rt: lib\n";

/// A repository with nothing but what tools/nexus looks at.
fn repository(name: &str) -> Folder {
    let folder = Folder::new(name);
    let program = |path: &str, text: &str| {
        let path = folder.put(path, text);
        fs::set_permissions(path, Permissions::from_mode(0o755)).expect("a program");
    };
    program("tools/nexus", SCRIPT);
    program("tools/build", BUILD);
    program(
        "bin/rt",
        "#!/bin/sh\necho \"rt: $*\"\n[ ! -f ../../broken ] || exit 1\n\
        mkdir -p out && echo made > out/libnexus_c.a\n",
    );
    program("bin/cargo", "#!/bin/sh\n");
    program("host/target/release/nexus", "#!/bin/sh\necho \"ran $*\"\n");
    folder.put("crates/nexus_c/out/kept", "");
    folder.put("crates/read/src/lib.rt", "");
    folder.put("crates/read/proofs/Laws.antt", "");
    folder.put("crates.txt", "");
    folder
}

fn run(folder: &Folder) -> Done {
    let mut command = plain("tools/nexus");
    let path = std::env::var("PATH").expect("a path");
    command.env("PATH", format!("{}/bin:{path}", folder.0.display()));
    finished(command.args(["show", "a.nex"]).current_dir(&folder.0), b"")
}

/// Makes a file or folder so many seconds old.
fn age(path: &Path, seconds: u64) {
    let file = File::open(path).expect("a file or folder");
    let time = SystemTime::now() - Duration::from_secs(seconds);
    file.set_modified(time).expect("a time");
}

/// Is the archive made, before the command is run?
#[track_caller]
fn is_made(folder: &Folder) -> bool {
    let done = run(folder);
    assert_eq!((done.status, done.out.as_str()), (0, "ran show a.nex\n"));
    assert!(done.err.is_empty() || done.err.ends_with(MADE), "{done:?}");
    !done.err.is_empty()
}

#[test]
fn a_newer_source_is_built() {
    let folder = repository("made");
    assert!(is_made(&folder));
    assert!(!is_made(&folder));
    for newer in SOURCES {
        for source in SOURCES.iter().chain(&["crates", "crates/nexus_c"]) {
            age(&folder.0.join(source), 300);
        }
        age(&folder.0.join(ARCHIVE), 200);
        assert!(!is_made(&folder), "{newer}");
        age(&folder.0.join(newer), 100);
        assert!(is_made(&folder), "{newer}");
        assert!(!is_made(&folder), "{newer}");
    }
}

/// What rt keeps of a crate is no source.
#[test]
fn what_rt_keeps_is_no_source() {
    let folder = repository("made-kept");
    assert!(is_made(&folder));
    folder.put("crates/read/out/kept", "");
    for source in SOURCES.iter().chain(&["crates", "crates/nexus_c"]) {
        age(&folder.0.join(source), 300);
    }
    age(&folder.0.join(ARCHIVE), 200);
    assert!(!is_made(&folder));
}

/// Where it cannot be made, no older one is used.
#[test]
fn nothing_else_is_run() {
    let folder = repository("made-not");
    assert!(is_made(&folder));
    age(&folder.0.join(ARCHIVE), 200);
    folder.put("broken", "");
    for _ in 0..2 {
        let done = run(&folder);
        assert_eq!((done.status, done.out.as_str()), (2, ""));
        assert!(done.err.contains("rt: lib"), "{done:?}");
        let _ = fs::remove_file(folder.0.join(ARCHIVE));
    }
}
