//! The program crates/nexus prints the record of its input or the refusal, to the byte as the
//! oracle has it.

mod common;

use std::fs::File;
use std::process::Command;

use calls::{Folder, texts};
use inputs::example;
use oracle::answer::{self, Answer, ENOUGH};

/// The most bytes that the program takes.
const LONGEST: usize = 1_024;

/// The length of its record buffer.
const BUFFER: u64 = 65_536;

const TOO_LONG: &[u8] = b"refused=1\nline=0\ncolumn=0\n";

fn program() -> Command {
    Command::new(common::repository().join("target/bin/nexus"))
}

#[track_caller]
fn printed<'a>(input: impl Iterator<Item = &'a [u8]>) -> Vec<u8> {
    let output = common::run(&mut program(), input);
    let errors = String::from_utf8_lossy(&output.stderr);
    assert!(output.status.success(), "{}: {errors}", output.status);
    assert_eq!(errors, "");
    output.stdout
}

fn expected(input: &[u8]) -> Vec<u8> {
    if input.len() > LONGEST {
        return TOO_LONG.to_vec();
    }
    answer::read(input, ENOUGH, BUFFER).into_bytes()
}

/// What the program prints of an input, which is what the oracle says.
#[track_caller]
fn checked(input: &[u8]) -> Vec<u8> {
    let (printed, expected) = (printed([input].into_iter()), expected(input));
    assert!(
        printed == expected,
        "{}\nexpected\n{}\nprinted\n{}",
        input.escape_ascii(),
        expected.escape_ascii(),
        printed.escape_ascii()
    );
    printed
}

#[test]
#[cfg_attr(not(program_nexus), ignore = "no program; tools/build makes it")]
fn the_example() {
    let text = example::TEXT.as_bytes();
    assert_eq!(checked(text), example::RECORD.as_bytes());
    // The same by single bytes.
    assert_eq!(printed(text.chunks(1)), example::RECORD.as_bytes());
}

#[test]
#[cfg_attr(not(program_nexus), ignore = "no program; tools/build makes it")]
fn refusals() {
    let middle = example::TEXT.replace('?', "X");
    let late = format!("{}BEGIN", example::TEXT);
    for (input, right) in [
        (&b""[..], &b"refused=6\nline=1\ncolumn=1\n"[..]),
        (middle.as_bytes(), b"refused=22\nline=5\ncolumn=10\n"),
        (late.as_bytes(), b"refused=8\nline=8\ncolumn=1\n"),
        (b"#NEXUS \xff", b"refused=3\nline=0\ncolumn=0\n"),
        (b"#NEXUS\nBEGIN '", b"refused=4\nline=2\ncolumn=7\n"),
    ] {
        assert_eq!(checked(input), right, "{}", input.escape_ascii());
    }
}

#[test]
#[cfg_attr(not(program_nexus), ignore = "no program; tools/build makes it")]
fn lengths() {
    let mut text = example::TEXT.as_bytes().to_vec();
    text.resize(LONGEST - 1, b' ');
    assert_eq!(checked(&text), example::RECORD.as_bytes());
    text.push(b'\n');
    assert_eq!(checked(&text), example::RECORD.as_bytes());
    for more in [1, 2, 3_000, 200_000] {
        text.resize(LONGEST + more, b' ');
        assert_eq!(checked(&text), TOO_LONG);
    }
    // Too long goes before what is not UTF-8.
    assert_eq!(checked(&[0xff; LONGEST + 1]), TOO_LONG);
    checked(&[0xff; LONGEST]);
}

/// A read that fails is not taken for the end of the input: nothing is printed, and standard error says
/// what failed. The status is 0 also then (docs/TRUST.md).
#[test]
#[cfg_attr(not(program_nexus), ignore = "no program; tools/build makes it")]
fn a_read_that_fails() {
    let folder = File::open(common::repository()).expect("a folder");
    let output = program().stdin(folder).output().expect("the program runs");
    assert_eq!(output.stdout, b"");
    assert_eq!(output.stderr, b"read: Is a directory\n");
    assert_eq!(output.status.code(), Some(0));
}

/// So it is with a write that fails.
#[test]
#[cfg_attr(not(program_nexus), ignore = "no program; tools/build makes it")]
fn a_write_that_fails() {
    let folder = Folder::new("full");
    let text = File::open(folder.file("text", example::TEXT.as_bytes())).expect("a text");
    let full = File::options().write(true).open("/dev/full");
    let mut program = program();
    program.stdin(text).stdout(full.expect("a full device"));
    let output = program.output().expect("the program runs");
    assert_eq!(output.stderr, b"write: No space left on device\n");
    assert_eq!(output.status.code(), Some(0));
}

/// The longest record: as many cells of several states as the input has room for.
#[test]
#[cfg_attr(not(program_nexus), ignore = "no program; tools/build makes it")]
fn a_long_record() {
    let text = |cells: usize| {
        format!(
            "#NEXUS BEGIN DATA;DIMENSIONS NTAX=1 NCHAR={cells};FORMAT DATATYPE=DNA;MATRIX a {};END;",
            "N".repeat(cells)
        )
    };
    let rest = text(100).len() - 100;
    let text = text(LONGEST - rest);
    assert_eq!(text.len(), LONGEST);
    let record = checked(text.as_bytes());
    assert!(record.starts_with(b"datatype=DNA\n"));
    assert!(record.len() > 40_000, "{} bytes", record.len());
}

#[test]
#[cfg_attr(not(program_nexus), ignore = "no program; tools/build makes it")]
fn names_beyond_ascii() {
    let text = example::TEXT
        .replace("a_b", "'Bärlauch żółć'")
        .replace("C 1", "日本\u{1f33f} 1");
    let record = String::from_utf8(checked(text.as_bytes())).expect("UTF-8");
    assert!(record.contains("\nname=Bärlauch żółć\n"));
    assert!(record.contains("\nname=日本\u{1f33f}\n"));
    // A column counts characters.
    let text = text.replace("1(1)0", "é");
    assert_eq!(checked(text.as_bytes()), b"refused=22\nline=6\ncolumn=5\n");
}

#[test]
#[cfg_attr(not(program_nexus), ignore = "no program; tools/build makes it")]
fn pages_with_labels_and_types() {
    let text = "\u{feff}#NEXUS
[A comment [in a comment].]
BEGIN TAXA;
  DIMENSIONS NTAX=3;
  TAXLABELS Homo_sapiens 'Pan troglodytes' Gorilla;
END;
BEGIN CHARACTERS;
  DIMENSIONS NCHAR=7;
  FORMAT DATATYPE=DNA INTERLEAVE MISSING=? GAP=-;
  CHARSTATELABELS 1 first / A_state 'T''s', 3 third, 7 last / x;
  MATRIX
    Gorilla       ACGT
    Homo_sapiens  A-GN
    'Pan troglodytes' ??RY

    Gorilla       {AC}T(GT)
    Homo_sapiens  TTT
    'Pan troglodytes' -A?
  ;
END;
BEGIN ASSUMPTIONS;
  OPTIONS DEFTYPE=UNORD;
  TYPESET * mine = UNORD: 1-3 7;
END;
";
    let record = checked(text.as_bytes());
    assert!(record.starts_with(b"datatype=DNA\ntaxa=3\ncharacters=7\n"));
    // DNA is never ordered; other data may be.
    let ordered = text.replace("=UNORD;", "=ORD;");
    assert_eq!(
        checked(ordered.as_bytes()),
        b"refused=29\nline=1\ncolumn=2\n"
    );
    let standard = ordered.replace("DATATYPE=DNA", "SYMBOLS=\"ACGTRYN\"");
    let record = checked(standard.as_bytes());
    assert!(record.starts_with(b"datatype=STANDARD\ntaxa=3\ncharacters=7\n"));
    let count = |line: &str| String::from_utf8_lossy(&record).matches(line).count();
    assert_eq!((count("order=ORD\n"), count("order=UNORD\n")), (3, 4));
}

#[test]
#[cfg_attr(not(program_nexus), ignore = "no program; tools/build makes it")]
fn generated_texts() {
    let fits = |text: &Vec<u8>| {
        let beyond = matches!(answer::read(text, ENOUGH, BUFFER), Answer::Beyond(_));
        text.len() <= LONGEST && !beyond
    };
    let texts = (0..).map(|number| texts::text(43, number)).filter(fits);
    let printed = texts.take(200).map(|text| checked(&text));
    let refused = printed.filter(|lines| lines.starts_with(b"refused="));
    let refused = refused.count();
    assert!((50..150).contains(&refused), "{refused} of 200 are refused");
}
