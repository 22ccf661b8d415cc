//! What several tests need: programs that are compiled and run.
#![allow(dead_code)]

use std::io::{ErrorKind, Write};
use std::path::{Path, PathBuf};
use std::process::{Command, Output, Stdio};

pub fn repository() -> PathBuf {
    Path::new(env!("CARGO_MANIFEST_DIR")).join("../..")
}

/// A compiler of C or C++ that takes every warning for an error.
pub fn compiler(name: &str, standard: &str) -> Command {
    let mut command = Command::new(name);
    command.args(["-Wall", "-Wextra", "-Wpedantic", "-Wconversion", "-Werror"]);
    command.arg(format!("-std={standard}"));
    command.arg("-I").arg(repository().join("include"));
    command
}

/// Runs a compiler.
#[track_caller]
pub fn compile(command: &mut Command) {
    let output = command.output();
    let output = output.unwrap_or_else(|error| panic!("{command:?} does not run: {error}"));
    let said = String::from_utf8_lossy(&output.stderr);
    assert!(output.status.success(), "{command:?}:\n{said}");
}

/// Runs a program, with these pieces as its input, one after another. It need not take them all.
#[track_caller]
pub fn run<'a>(command: &mut Command, input: impl Iterator<Item = &'a [u8]>) -> Output {
    command.stdin(Stdio::piped());
    command.stdout(Stdio::piped()).stderr(Stdio::piped());
    let mut child = command.spawn().expect("the program starts");
    let mut pipe = child.stdin.take().expect("a pipe");
    for piece in input {
        match pipe.write_all(piece) {
            Err(error) if error.kind() == ErrorKind::BrokenPipe => break,
            written => written.expect("the program reads"),
        }
    }
    drop(pipe);
    child.wait_with_output().expect("the program ends")
}
