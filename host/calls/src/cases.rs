//! The questions that the program crates/cases replays, and what it is to print of them.

use std::collections::BTreeSet;

use definitions::questions::{self, Call};
use inputs::example;
use oracle::answer::{self, Answer, ENOUGH};
use oracle::frames::write_frame;
use oracle::generate::{self, DAMAGES};
use oracle::lookup::lookup as find;

use crate::Question;
use crate::traps::TRAPS;

/// The longest question that the program takes, with the bytes that say what it is.
pub const LONGEST: usize = 4_096;

/// With a buffer of so many bytes the program finds out whether a text or record is refused.
const BUFFER: u64 = 65_536;

/// The buffer's length for what is refused.
const LITTLE: usize = 8;

/// What a buffer is filled with before a call.
const UNTOUCHED: u8 = b'#';

/// What stands around a trap whose words are to be state labels.
const LABELS: [&[u8]; 2] = [
    b"#NEXUS BEGIN DATA;DIMENSIONS NTAX=1 NCHAR=1;FORMAT SYMBOLS=\"0123456789ABCDEFGHIJKLMN\";\
    CHARSTATELABELS 1 x/",
    b";MATRIX a 0;END;",
];

/// Names to be found in the worked example's record: two taxa in either case, and then others.
const NAMES: [&[u8]; 14] = [
    b"a b",
    b"C",
    b"A b",
    b"c",
    b"",
    b"a",
    b"a_b",
    b"a b ",
    b"'a b'",
    b"name=C",
    b"C\ncells=1 p1 0",
    b"D",
    b"\xc3\x87",
    b"\xff",
];

/// The questions, each once: the chosen ones; the traps of lexing, each as it stands, behind
/// `#NEXUS `, and as state labels, so that the record shows the bytes of its words; and the worked
/// example's record with each damage that it can have, to be written and to be looked into.
pub fn questions() -> Result<Vec<Question>, String> {
    let mut questions = Vec::new();
    for (_, file) in questions::files(&questions::folder())? {
        questions.extend(file.asked.into_iter().map(|asked| chosen(asked.call)));
    }
    for trap in TRAPS.iter().flat_map(|(_, traps)| *traps) {
        questions.push(Question::Text(trap.to_vec()));
        questions.push(Question::Text([b"#NEXUS ", *trap].concat()));
        questions.push(Question::Text(LABELS.join(*trap)));
    }
    questions.extend(of_the_example());
    let mut seen = BTreeSet::new();
    questions.retain(|question| fits(question) && seen.insert(framed(question)));
    Ok(questions)
}

fn chosen(call: Call) -> Question {
    match call {
        Call::Read { text, .. } => Question::Text(text),
        Call::Write { record, .. } => Question::Record(record),
        Call::Lookup { name, record } => Question::Lookup { name, record },
    }
}

/// The questions on the worked example's record and its damaged ones.
fn of_the_example() -> Vec<Question> {
    let sound = example::RECORD.as_bytes();
    let mut questions = vec![Question::Record(sound.to_vec())];
    questions.extend(NAMES.map(|name| lookup(name, sound)));
    for damage in 0..DAMAGES.len() {
        let damaged = generate::with_damage(1, damage as u64, sound, damage);
        if let Some(record) = damaged {
            questions.push(lookup(NAMES[damage % NAMES.len()], &record));
            questions.push(Question::Record(record));
        }
    }
    questions
}

fn lookup(name: &[u8], record: &[u8]) -> Question {
    Question::Lookup {
        name: name.to_vec(),
        record: record.to_vec(),
    }
}

/// Whether the program takes the question, and the oracle can bear it.
pub fn fits(question: &Question) -> bool {
    let borne = match question {
        Question::Text(text) => !matches!(answer::read(text, ENOUGH, ENOUGH), Answer::Beyond(_)),
        Question::Record(_) => true,
        Question::Lookup { name, .. } => name.len() <= usize::from(u8::MAX),
    };
    borne && framed(question).len() <= LONGEST
}

/// A question as the program is given it: a byte that says what it is, and what stands behind it.
fn framed(question: &Question) -> Vec<u8> {
    match question {
        Question::Text(text) => [b"t", text.as_slice()].concat(),
        Question::Record(record) => [b"w", record.as_slice()].concat(),
        Question::Lookup { name, record } => {
            let length = u8::try_from(name.len()).expect("a name of at most 255 bytes");
            [b"l", &[length][..], name, record].concat()
        }
    }
}

/// The file of the questions.
pub fn file(questions: &[Question]) -> Vec<u8> {
    let mut file = Vec::new();
    for question in questions {
        write_frame(&mut file, &framed(question)).expect("a frame");
    }
    file
}

/// What the program is to print of the questions.
pub fn printed(questions: &[Question]) -> Vec<u8> {
    let printed = questions.iter().map(|question| match question {
        Question::Text(text) => calls(|room| answer::read(text, ENOUGH, room)),
        Question::Record(record) => calls(|room| answer::write(record, room)),
        Question::Lookup { name, record } => cells(name, record),
    });
    printed.collect::<Vec<_>>().join(&b"--\n"[..])
}

/// All calls for a text or a record, by their answer with a buffer of so many bytes.
fn calls(answer: impl Fn(u64) -> Answer) -> Vec<u8> {
    match answer(BUFFER) {
        Answer::Bytes(bytes) => {
            let length = bytes.len();
            let rooms = [length - 1, length, length + 1];
            rooms.map(|room| call(&answer, room)).concat()
        }
        Answer::Refused(_) => call(&answer, LITTLE),
        Answer::Beyond(_) => panic!("a text is beyond the oracle"),
    }
}

/// The call with a buffer of so many bytes.
fn call(answer: impl Fn(u64) -> Answer, room: usize) -> Vec<u8> {
    let mut buffer = vec![UNTOUCHED; room];
    let answer = match answer(room as u64) {
        Answer::Bytes(bytes) => {
            buffer[..bytes.len()].copy_from_slice(&bytes);
            format!("length={}\n", bytes.len()).into_bytes()
        }
        refused => refused.into_bytes(),
    };
    let room = format!("room={room}\n");
    [room.as_bytes(), &answer, &buffer, b"\n"].concat()
}

/// The lines of a lookup, and the cells that it hands back.
fn cells(name: &[u8], record: &[u8]) -> Vec<u8> {
    let cells = match find(name, record) {
        Ok(stretch) => &record[stretch.start..][..stretch.length],
        Err(_) => &[],
    };
    [&answer::lookup(name, record), cells, b"\n"].concat()
}
