//! The program: frames in, frames out.

use std::io::Write;
use std::process::{Command, Output, Stdio};

use oracle::frames::{read_frame, write_frame};

fn run(arguments: &[&str], input: &[u8]) -> Output {
    let mut child = Command::new(env!("CARGO_BIN_EXE_oracle"))
        .args(arguments)
        .stdin(Stdio::piped())
        .stdout(Stdio::piped())
        .stderr(Stdio::piped())
        .spawn()
        .expect("the program starts");
    let mut stdin = child.stdin.take().expect("a pipe");
    let input = input.to_vec();
    let writer = std::thread::spawn(move || {
        // The program may stop before it has read everything.
        let _ = stdin.write_all(&input);
    });
    let output = child.wait_with_output().expect("the program ends");
    writer.join().expect("the writer ends");
    output
}

fn framed(frames: &[&[u8]]) -> Vec<u8> {
    let mut out = Vec::new();
    for frame in frames {
        write_frame(&mut out, frame).expect("memory");
    }
    out
}

fn unframed(mut bytes: &[u8]) -> Vec<Vec<u8>> {
    let mut frames = Vec::new();
    while let Some(frame) = read_frame(&mut bytes).expect("whole frames") {
        frames.push(frame);
    }
    frames
}

/// The frames that a run which ends well puts out.
#[track_caller]
fn answers(arguments: &[&str], input: &[u8]) -> Vec<Vec<u8>> {
    let output = run(arguments, input);
    let said = String::from_utf8_lossy(&output.stderr);
    assert!(output.status.success(), "{arguments:?}: {said}");
    unframed(&output.stdout)
}

#[test]
fn frames_go_around() {
    let frames: [&[u8]; 4] = [b"", b"a", b"\x00\xff\n", &[7; 70_000]];
    assert_eq!(unframed(&framed(&frames)), frames);
    let mut cut: &[u8] = &framed(&[b"abc"])[..6];
    assert!(read_frame(&mut cut).is_err());
    let mut cut: &[u8] = b"\x01\x00";
    assert!(read_frame(&mut cut).is_err());
}

#[test]
fn generated_answers_are_those_of_the_batch_modes() {
    for (kind, mode, width) in [
        ("texts", "read", 1),
        ("records", "write", 1),
        ("lookups", "lookup", 2),
    ] {
        let questions = run(&["generate", kind, "300", "--seed", "9"], b"").stdout;
        let batch = answers(&[mode], &questions);
        let both = answers(&["generate", "--answers", kind, "300", "--seed", "9"], b"");
        assert_eq!(batch.len(), 300);
        assert_eq!(both.len(), 300 * (width + 1));
        let asked: Vec<&[u8]> = both
            .chunks(width + 1)
            .flat_map(|question| question[..width].iter().map(Vec::as_slice))
            .collect();
        assert_eq!(framed(&asked), questions);
        let given = both.chunks(width + 1).map(|question| &question[width]);
        assert!(given.eq(batch.iter()));
    }
}

#[test]
fn lengths_stand_before_the_questions() {
    let text: &[u8] = b"#NEXUS BEGIN DATA; DIMENSIONS NTAX=1 NCHAR=1; MATRIX a 0; END;";
    let record = answers(&["read"], &framed(&[text])).remove(0);
    let form = answers(&["write"], &framed(&[&record])).remove(0);
    let lengths = |work: u64, buffer: u64| [work.to_le_bytes(), buffer.to_le_bytes()].concat();
    let work = 4 * text.len() as u64 + 64;
    let length = record.len() as u64;
    let questions = framed(&[
        &lengths(u64::MAX, u64::MAX),
        text,
        &lengths(work, length),
        text,
        &lengths(work - 1, length),
        text,
        &lengths(work, length - 1),
        text,
    ]);
    let refused = |number: u32| format!("refused={number}\nline=0\ncolumn=0\n").into_bytes();
    let expected = [record.clone(), record.clone(), refused(2), refused(30)];
    assert_eq!(answers(&["read", "--lengths"], &questions), expected);
    let length = form.len() as u64;
    let questions = framed(&[
        &lengths(0, length),
        &record,
        &lengths(0, length - 1),
        &record,
        &lengths(0, 0),
        b"x",
    ]);
    assert_eq!(
        answers(&["write", "--lengths"], &questions),
        [form, refused(30), refused(31)]
    );
}

#[test]
fn messages_are_counted() {
    let input = framed(&[b"", b"X", b"#NEXUS", b"\xff"]);
    let report = run(&["messages"], &input).stdout;
    let report = String::from_utf8(report).expect("text");
    let count = |site: &str| {
        let line = report
            .lines()
            .find(|line| line.split(' ').any(|word| word == site));
        let line = line.unwrap_or_else(|| panic!("no {site} in {report}"));
        line.split_whitespace().next().expect("a count").to_string()
    };
    assert_eq!(count("mod.rs:42"), "1");
    assert_eq!(count("mod.rs:48"), "1");
    assert_eq!(count("mod.rs:93"), "1");
    assert_eq!(count("mod.rs:57"), "0");
    assert!(
        report.contains("texts 4, read 0 (0.00 percent), not UTF-8 1"),
        "{report}"
    );
}

#[test]
fn tokens_come_in_frames() {
    let given = answers(&["lex"], &framed(&[b"a;", b"'"]));
    assert_eq!(
        given,
        [
            b"WORD 1 1 61\nPUNCTUATION 1 2 3b\n".to_vec(),
            b"refused=4\nline=1\ncolumn=1\n".to_vec()
        ]
    );
}

#[test]
fn wrong_input_is_said_and_ends_with_2() {
    let cases: &[(&[&str], &[u8])] = &[
        (&["read"], b"\x01"),
        (&["read"], b"\x05\x00\x00\x00abc"),
        (&["write"], b"\xff\xff\xff\xffabc"),
        (&["lookup"], b"\x01\x00\x00\x00a"),
        (&["read", "--lengths"], b"\x01\x00\x00\x00a\x00\x00\x00\x00"),
        (&["write", "--lengths"], b"\x10\x00\x00\x00aaaaaaaaaaaaaaaa"),
        (&["lookup", "--lengths"], b""),
        (&["lex"], b"\x01\x00\x00\x00"),
        (&["messages"], b"ab"),
        (&["generate", "texts", "x"], b""),
        (&["generate", "trees", "1"], b""),
        (&["generate", "texts"], b""),
        (&["measure", "1", "--seed", "-1"], b""),
        (&["unknown"], b""),
        (&[], b""),
    ];
    for (arguments, input) in cases {
        let output = run(arguments, input);
        assert_eq!(output.status.code(), Some(2), "{arguments:?}");
        assert!(!output.stderr.is_empty(), "{arguments:?}");
    }
}

#[test]
fn no_questions_have_no_answers() {
    for mode in ["read", "write", "lookup", "lex"] {
        assert_eq!(answers(&[mode], b""), Vec::<Vec<u8>>::new());
    }
}
