//! The program crates/cases: its files are those that the oracle makes, and on other questions it
//! prints what the oracle says.

mod common;

use std::fs;
use std::process::Command;

use calls::cases::{self, LONGEST, file, fits, printed};
use calls::question::KINDS;
use calls::{Folder, Question};
use oracle::frames::write_frame;

/// What the program writes to standard output and to standard error on a file.
#[track_caller]
fn run(name: &str, file: &[u8]) -> (Vec<u8>, String) {
    let folder = Folder::new(name);
    folder.file("questions", file);
    let mut program = Command::new(common::repository().join("target/bin/cases"));
    let output = common::run(program.current_dir(&folder.0), [].into_iter());
    assert!(output.status.success(), "{}", output.status);
    let errors = String::from_utf8(output.stderr).expect("UTF-8");
    (output.stdout, errors)
}

/// How many calls in what is printed have this answer.
fn count(printed: &[u8], answer: &str) -> usize {
    let lines = printed.split(|byte| *byte == b'\n');
    lines.filter(|line| *line == answer.as_bytes()).count()
}

/// The program's questions, and what it is held to on them in the gate, are not changed by hand.
#[test]
fn its_files() {
    let folder = common::repository().join("crates/cases");
    let held = |name: &str| fs::read(folder.join(name)).expect("a file of crates/cases");
    let questions = cases::questions().expect("the questions");
    let of_a_kind = |kind: fn(&Question) -> bool| questions.iter().filter(|q| kind(q)).count();
    assert!(of_a_kind(|question| matches!(question, Question::Text(_))) > 500);
    assert!(of_a_kind(|question| matches!(question, Question::Record(_))) > 150);
    assert!(of_a_kind(|question| matches!(question, Question::Lookup { .. })) > 50);
    let expected = printed(&questions);
    assert!(count(&expected, "refused=31") > 100);
    assert!(count(&expected, "refused=33") > 10);
    assert!(count(&expected, "refused=0") >= 10);
    assert!(
        held("data/questions") == file(&questions),
        "run the program `cases`"
    );
    assert!(held("stdout") == expected, "run the program `cases`");
}

#[test]
#[cfg_attr(not(program_cases), ignore = "no program; tools/build makes it")]
fn generated_questions() {
    for kind in KINDS {
        let questions = (0..).map(|number| Question::generated(kind, 44, number));
        let questions: Vec<_> = questions.filter(fits).take(2_000).collect();
        let (output, errors) = run("generated", &file(&questions));
        assert_eq!(errors, "");
        assert!(output == printed(&questions), "{kind:?}");
    }
}

#[test]
#[cfg_attr(not(program_cases), ignore = "no program; tools/build makes it")]
fn ends_of_the_file() {
    let text = |byte: u8, length: usize| Question::Text(vec![byte; length]);
    let lookup = |name: usize, record: usize| Question::Lookup {
        name: vec![b'a'; name],
        record: vec![b'a'; record],
    };
    let fine = [
        text(b'a', LONGEST - 1),
        text(b'a', 0),
        text(b';', LONGEST - 1),
        Question::Record(vec![b'a'; LONGEST - 1]),
        Question::Record(Vec::new()),
        lookup(255, LONGEST - 257),
        lookup(255, 0),
        lookup(0, LONGEST - 2),
        lookup(0, 0),
    ];
    assert_eq!(run("none", &[]), (Vec::new(), String::new()));
    assert_eq!(run("fine", &file(&fine)), (printed(&fine), String::new()));
    let long = [text(b'a', 3), text(b'b', LONGEST), text(b'c', 3)];
    let (output, errors) = run("long", &file(&long));
    assert_eq!(output, printed(&long[..1]));
    assert_eq!(errors, "cases: a question is longer than 4096 bytes\n");
    let file = file(&long[..1]);
    for length in 1..file.len() {
        let (output, errors) = run("cut", &file[..length]);
        assert!(output.is_empty());
        assert_eq!(errors, "cases: the file ends within a question\n");
    }
}

/// No byte that says what it is, another one, and a name that is shorter than its length.
#[test]
#[cfg_attr(not(program_cases), ignore = "no program; tools/build makes it")]
fn no_questions() {
    let frames = [&b""[..], b"x", b"Tx", b"l", b"l\x01", b"l\xffabc"];
    let mut file = Vec::new();
    for frame in frames {
        write_frame(&mut file, frame).expect("a frame");
    }
    let output = ["no question\n"; 6].join("--\n");
    assert_eq!(run("no", &file), (output.into_bytes(), String::new()));
}

/// Without its file it prints nothing, says what failed, and ends with status 1.
#[test]
#[cfg_attr(not(program_cases), ignore = "no program; tools/build makes it")]
fn no_file() {
    let folder = Folder::new("no-file");
    let mut program = Command::new(common::repository().join("target/bin/cases"));
    let output = program.current_dir(&folder.0).output();
    let output = output.expect("the program runs");
    assert_eq!(output.stdout, b"");
    let errors = String::from_utf8(output.stderr).expect("UTF-8");
    assert!(errors.contains("No such file or directory"), "{errors}");
    assert_eq!(output.status.code(), Some(1));
}
