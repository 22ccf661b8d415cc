//! A read call that sets its numbers wrongly is found out: by the check of a text, and by the program
//! of C. tests/shims.c has two such calls, and one that is right, which passes both.

mod common;

use std::ffi::{CString, c_char, c_int, c_void};
use std::os::unix::ffi::OsStrExt;
use std::path::{Path, PathBuf};
use std::process::Command;

use calls::{Checker, Folder, Read};
use common::repository;
use inputs::example;

/// The calls of tests/shims.c, and what the check of a text says of each that is wrong.
const CALLS: [(&str, Option<&str>); 3] = [
    ("read_rightly", None),
    ("read_lower_halves", Some("the answer is another")),
    (
        "read_wide_number",
        Some("memory behind the number has changed"),
    ),
];

/// A text that is read and one that is refused at a place, and what is printed of them.
fn texts() -> [(String, &'static str); 2] {
    let wrong = example::TEXT.replace('?', "X");
    [
        (example::TEXT.to_string(), example::RECORD),
        (wrong, "refused=22\nline=5\ncolumn=10\n"),
    ]
}

/// A file of this folder.
fn source(name: &str) -> PathBuf {
    repository().join("host/calls/tests").join(name)
}

fn archive() -> PathBuf {
    repository().join("target/staticlib/libnexus_c.a")
}

type Call = unsafe extern "C" fn(
    text: *const u8,
    text_length: usize,
    work: *mut u32,
    work_length: usize,
    buffer: *mut u8,
    buffer_length: usize,
    number: *mut u32,
    line: *mut usize,
    column: *mut usize,
) -> usize;

// SAFETY: the C library has these functions, with these types.
unsafe extern "C" {
    fn dlopen(file: *const c_char, flags: c_int) -> *mut c_void;
    fn dlsym(library: *mut c_void, name: *const c_char) -> *mut c_void;
}

/// The call of this name in a library that was made of tests/shims.c.
fn loaded(library: &Path, name: &str) -> Box<Read> {
    const RTLD_NOW: c_int = 2;
    let path = CString::new(library.as_os_str().as_bytes()).expect("a path");
    let name = CString::new(name).expect("a name");
    // SAFETY: nothing is done as the library is loaded, and it stays loaded; what has the name is of
    // this type.
    let call = unsafe {
        let library = dlopen(path.as_ptr(), RTLD_NOW);
        assert!(!library.is_null(), "{path:?} cannot be loaded");
        let call = dlsym(library, name.as_ptr());
        assert!(!call.is_null(), "{path:?} has no {name:?}");
        std::mem::transmute::<*mut c_void, Call>(call)
    };
    Box::new(move |text, work, buffer, number, line, column| {
        let (text, length) = (text.as_ptr(), text.len());
        let (work, numbers) = (work.as_mut_ptr(), work.len());
        let (buffer, room) = (buffer.as_mut_ptr(), buffer.len());
        // SAFETY: as for `nexus_read`; where a wrong call writes besides, the check has memory too.
        unsafe {
            call(
                text, length, work, numbers, buffer, room, number, line, column,
            )
        }
    })
}

#[test]
#[cfg_attr(not(archive), ignore = "no archive; tools/test-calls makes it")]
fn the_check_of_a_text() {
    let folder = Folder::new("shims-loaded");
    let library = folder.0.join("shims.so");
    let mut command = common::compiler("cc", "c99");
    command.args(["-shared", "-fPIC", "-o"]).arg(&library);
    common::compile(command.arg(source("shims.c")).arg(archive()));
    for (name, fault) in CALLS {
        for (text, _) in texts() {
            let mut checker = Checker::of(loaded(&library, name));
            let said = checker.check(text.as_bytes()).err();
            let said = said.map(|difference| difference.given);
            let right = match (&said, fault) {
                (None, None) => true,
                (Some(said), Some(fault)) => said.ends_with(fault),
                _ => false,
            };
            assert!(right, "{name}: {said:?}");
        }
    }
}

#[test]
#[cfg_attr(not(archive), ignore = "no archive; tools/test-calls makes it")]
fn the_program_of_c() {
    let folder = Folder::new("shims-linked");
    let shims = folder.0.join("shims.o");
    let mut command = common::compiler("cc", "c99");
    common::compile(
        command
            .arg("-c")
            .arg(source("shims.c"))
            .arg("-o")
            .arg(&shims),
    );
    for (name, fault) in CALLS {
        let program = folder.0.join(name);
        let mut command = common::compiler("cc", "c99");
        command
            .arg(format!("-Dnexus_read={name}"))
            .arg(source("read.c"));
        common::compile(command.arg(&shims).arg(archive()).arg("-o").arg(&program));
        for (text, right) in texts() {
            let output = common::run(&mut Command::new(&program), [text.as_bytes()].into_iter());
            let taken = output.stdout == right.as_bytes();
            assert_eq!(taken, fault.is_none(), "{name}: {output:?}");
        }
    }
}
