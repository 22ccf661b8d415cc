//! Sessions on a terminal, which `script` of util-linux makes.

use std::process::{Command, Stdio};

use inputs::example::TEXT;

use crate::run::{Folder, NEXUS, plain};

/// What is seen on a terminal of so many columns while a command of the shell runs. Where there is
/// no `script`, the test passes with a word about it; with NEXUS_BUILT=required that is an error.
fn seen(folder: &Folder, columns: usize, arguments: &str, before: &str) -> Option<String> {
    let mut version = Command::new("script");
    version.arg("--version").stdout(Stdio::null());
    if version.status().is_err() {
        let required = std::env::var("NEXUS_BUILT").is_ok_and(|value| value == "required");
        assert!(!required, "`script` of util-linux is not there");
        println!("no `script`");
        return None;
    }
    let inner = format!("stty cols {columns} rows 24; {before} '{NEXUS}' {arguments}");
    let mut script = plain("script");
    script
        .args(["-qec", &inner, "/dev/null"])
        .stdin(Stdio::null());
    let output = script.current_dir(&folder.0).output().expect("script");
    let seen = String::from_utf8(output.stdout).expect("UTF-8");
    Some(seen.replace("\r\n", "\n"))
}

fn with_files(name: &str) -> Folder {
    let folder = Folder::new(name);
    for number in 0..60 {
        folder.put(format!("in/{number}.nex"), TEXT);
    }
    folder.put("in/x.nex", TEXT.replace('?', "x"));
    folder.put("wide.nex", inputs::rows(3, 200));
    folder
}

const ESCAPE: char = '\u{1b}';

#[test]
#[cfg_attr(not(archive), ignore = "no archive; tools/test-calls makes it")]
fn a_bar_and_colours() {
    let folder = with_files("terminal-bar");
    let Some(seen) = seen(&folder, 70, "check in", "") else {
        return;
    };
    let bar = format!("\r[{}] 0 of 61 files{ESCAPE}[K", "-".repeat(23));
    assert!(seen.contains(&bar), "{seen:?}");
    // The bar is taken away before anything else is written, and in the end.
    let (before, behind) = seen.split_once("error[22]").expect("an error");
    assert!(
        before.ends_with(&format!("\r{ESCAPE}[K{ESCAPE}[1;31m")),
        "{before:?}"
    );
    assert!(
        behind.contains(&format!("{ESCAPE}[1;31m^{ESCAPE}[0m\n")),
        "{behind:?}"
    );
    let (before, behind) = seen.split_once("61 files: ").expect("a summary");
    assert!(before.ends_with(&format!("\r{ESCAPE}[K")) || before.ends_with('\n'));
    assert!(behind.starts_with("60 read, 1 refused\n"), "{behind:?}");
    assert!(!behind.contains('\r'));
}

#[test]
#[cfg_attr(not(archive), ignore = "no archive; tools/test-calls makes it")]
fn no_colour_where_none_is_wanted() {
    let folder = with_files("terminal-plain");
    for before in ["NO_COLOR=1", "TERM=dumb"] {
        let Some(seen) = seen(&folder, 70, "show wide.nex", before) else {
            return;
        };
        assert!(!seen.contains(ESCAPE), "{seen:?}");
        assert!(seen.contains("\ntaxon00000  "));
    }
    let painted = seen(&folder, 70, "show wide.nex", "NO_COLOR=").expect("script is there");
    assert!(
        painted.contains(&format!("{ESCAPE}[1mwide.nex{ESCAPE}[0m\n")),
        "{painted:?}"
    );
    let check = seen(&folder, 70, "check in", "NO_COLOR=1").expect("script is there");
    assert!(check.contains("\r[---"), "the bar is no colour");
    assert!(!check.contains(&format!("{ESCAPE}[1;31m")));
}

/// A wide matrix is as wide as the terminal, whatever that is.
#[test]
#[cfg_attr(not(archive), ignore = "no archive; tools/test-calls makes it")]
fn a_matrix_is_cut_to_the_terminal() {
    let folder = with_files("terminal-cut");
    for (columns, last) in [(40, 26), (70, 53), (120, 99)] {
        let Some(seen) = seen(&folder, columns, "show wide.nex", "NO_COLOR=1") else {
            return;
        };
        let longest = seen.lines().map(|line| line.chars().count()).max();
        assert_eq!(longest, Some(columns), "{seen}");
        let joined = seen.replace('\n', " ");
        let note = format!(
            "characters 1 to {last} of 200 are shown; --from {} shows",
            last + 1
        );
        assert!(joined.contains(&note), "{seen}");
    }
    let given = seen(&folder, 40, "show wide.nex", "NO_COLOR=1 COLUMNS=70").expect("script");
    assert!(
        given.contains("characters 1 to 53 of 200"),
        "COLUMNS goes first"
    );
    let whole = seen(&folder, 40, "show --wide wide.nex", "NO_COLOR=1").expect("script");
    assert!(!whole.contains("are shown"));
    assert!(
        whole.lines().any(|line| line.len() == 12 + 200 + 19),
        "{whole}"
    );
}

/// Results that go to a pipe have no colours, whatever messages have.
#[test]
#[cfg_attr(not(archive), ignore = "no archive; tools/test-calls makes it")]
fn a_pipe_from_a_terminal() {
    let folder = with_files("terminal-pipe");
    let Some(seen) = seen(&folder, 40, "show wide.nex | cat", "") else {
        return;
    };
    assert!(!seen.contains(ESCAPE), "{seen:?}");
    assert!(!seen.contains("are shown"));
    let quiet = seen_messages(&folder);
    assert!(
        !quiet.contains(ESCAPE) && !quiet.contains('\r'),
        "{quiet:?}"
    );
}

/// Messages of `check` that go to a pipe while results go to the terminal.
fn seen_messages(folder: &Folder) -> String {
    let seen = seen(folder, 40, "check in 2>messages", "").expect("script is there");
    assert!(
        seen.starts_with("61 files: 60 read, 1 refused\n"),
        "{seen:?}"
    );
    std::fs::read_to_string(folder.0.join("messages")).expect("messages")
}
