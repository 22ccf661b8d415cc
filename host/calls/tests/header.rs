//! include/nexus.h is a header of C and of C++, and what it declares is in the archive.

mod common;

use std::path::Path;
use std::process::Command;

use calls::Folder;
use common::repository;
use inputs::example;
use nexus::{STACK_NEEDED, TEXT_LIMIT, longest_record, read_into};
use oracle::answer::{self, ENOUGH};

/// The languages: what the compiler is called, and which standards it is held to.
const LANGUAGES: &[(&str, &str, &[&str])] = &[
    ("cc", "c", &["c99", "c11"]),
    ("c++", "c++", &["c++11", "c++17"]),
];

/// Runs a compiler on tests/read.c; every warning is an error.
#[track_caller]
fn compile(compiler: &str, language: &str, standard: &str, more: &[&str], to: &Path) {
    let mut command = common::compiler(compiler, standard);
    command.args(["-x", language]);
    command
        .arg(repository().join("host/calls/tests/read.c"))
        .args(["-x", "none"]);
    common::compile(command.args(more).arg("-o").arg(to));
}

/// What the program prints of a text.
#[track_caller]
fn printed(program: &Path, words: &[&str], text: &[u8]) -> Vec<u8> {
    let mut command = Command::new(program);
    let output = common::run(command.args(words), [text].into_iter());
    let status = output.status;
    assert!(
        matches!(status.code(), Some(0 | 1)),
        "{command:?}: {status}"
    );
    output.stdout
}

#[test]
fn the_header_compiles() {
    let folder = Folder::new("compiled");
    for (compiler, language, standards) in LANGUAGES {
        for standard in *standards {
            compile(
                compiler,
                language,
                standard,
                &["-c"],
                &folder.0.join("read.o"),
            );
        }
    }
}

#[test]
#[cfg_attr(not(archive), ignore = "no archive; tools/test-calls makes it")]
fn a_program_of_c_makes_every_call() {
    let folder = Folder::new("linked");
    let archive = repository().join("target/staticlib/libnexus_c.a");
    let archive = archive.to_str().expect("a path in UTF-8");
    for (compiler, language, standards) in LANGUAGES {
        let program = folder.0.join(language);
        compile(compiler, language, standards[0], &[archive], &program);
        let text = example::TEXT.as_bytes();
        assert_eq!(printed(&program, &[], text), example::RECORD.as_bytes());
        assert_eq!(
            printed(&program, &["short"], text),
            b"refused=2\nline=0\ncolumn=0\n"
        );
        let wrong = example::TEXT.replace("C 1", "É X");
        assert_eq!(
            printed(&program, &[], wrong.as_bytes()),
            b"refused=22\nline=6\ncolumn=3\n"
        );
        for text in [
            "",
            "#NEXUS [",
            "\u{feff}X",
            &example::TEXT.replace("NTAX=2", "NTAX=3"),
        ] {
            let right = answer::read(text.as_bytes(), ENOUGH, ENOUGH).into_bytes();
            assert_eq!(printed(&program, &[], text.as_bytes()), right, "{text:?}");
        }
        let form = printed(&program, &["form"], text);
        assert_eq!(form, example::FORM.as_bytes());
        // The form's own record and form are the same.
        assert_eq!(printed(&program, &[], &form), example::RECORD.as_bytes());
        assert_eq!(printed(&program, &["form"], &form), form);
        for (name, cells) in [
            ("a b", "0 u0.1 m"),
            ("A B", "0 u0.1 m"),
            ("c", "1 p1 0"),
            ("a_b", "refused=33\n"),
            ("", "refused=33\n"),
        ] {
            let printed = printed(&program, &["cells", name], text);
            assert_eq!(printed, cells.as_bytes(), "{name:?}");
        }
    }
}

/// A host without the C library brings these two, and nothing else.
#[test]
#[cfg_attr(not(archive), ignore = "no archive; tools/test-calls makes it")]
fn the_archive_needs_two_names_from_outside() {
    let archive = repository().join("target/staticlib/libnexus_c.a");
    let output = Command::new("nm").arg("-u").arg(archive).output();
    let output = output.expect("nm runs");
    assert!(output.status.success(), "{output:?}");
    let printed = String::from_utf8(output.stdout).expect("UTF-8");
    let names = printed
        .lines()
        .filter_map(|line| line.trim().strip_prefix("U "));
    assert_eq!(names.collect::<Vec<_>>(), ["memcpy", "memset"]);
}

/// Whether a text is read with so much work memory, or the number by which it is refused.
fn read(text: &[u8], work: usize) -> Result<(), u32> {
    let (mut work, mut buffer) = (vec![0; work], vec![0; longest_record(text.len())]);
    let read = read_into(text, &mut work, &mut buffer);
    read.map(|_| ()).map_err(|refusal| refusal.number)
}

/// So much is read and needed as the header says: a text at its limit, and no longer one.
#[test]
#[cfg_attr(not(archive), ignore = "no archive; tools/test-calls makes it")]
fn the_numbers_of_the_header() {
    let folder = Folder::new("limits");
    let archive = repository().join("target/staticlib/libnexus_c.a");
    let archive = archive.to_str().expect("a path in UTF-8");
    for (compiler, language, standards) in LANGUAGES {
        let program = folder.0.join(language);
        compile(compiler, language, standards[0], &[archive], &program);
        let printed = String::from_utf8(printed(&program, &["limits"], b"")).expect("UTF-8");
        let numbers: Vec<usize> = printed
            .split_ascii_whitespace()
            .map(|number| number.parse().expect("a number"))
            .collect();
        let [limit, stack, work] = numbers[..] else {
            panic!("{printed:?}");
        };
        let mut text = inputs::row(limit);
        assert_eq!(read(&text, work), Ok(()));
        assert_eq!(read(&text, work - 1), Err(2));
        text.push(b'\n');
        assert_eq!(read(&text, work + 4), Err(1));
        assert_eq!((limit, stack), (TEXT_LIMIT, STACK_NEEDED));
    }
}
