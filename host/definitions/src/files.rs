//! Cases from files of frames, in the formats of the oracle's batch mode.

use std::fs;
use std::path::Path;

use oracle::frames::read_frame;

use crate::question::{Case, Question, numbers, work_needed};
use crate::value::{Value, is_refusal};

#[derive(Clone, Copy, Debug)]
pub enum Kind {
    Texts,
    Records,
    Lookups,
}

/// The cases of a file, and how many texts it has that are beyond the reader.
pub fn cases(kind: Kind, path: &Path) -> Result<(Vec<Case>, usize), String> {
    let place = path.display();
    let bytes = fs::read(path).map_err(|error| format!("{place}: {error}"))?;
    let name = path.file_name().unwrap_or_default().to_string_lossy();
    from_frames(kind, &bytes, &name).map_err(|error| format!("{place}: {error}"))
}

fn from_frames(kind: Kind, bytes: &[u8], name: &str) -> Result<(Vec<Case>, usize), String> {
    let frames = frames(bytes)?;
    let (what, width) = match kind {
        Kind::Texts => ("text", 2),
        Kind::Records => ("record", 2),
        Kind::Lookups => ("lookup", 3),
    };
    if !frames.len().is_multiple_of(width) {
        let got = frames.len();
        return Err(format!(
            "it has {got} frames, and each {what} takes {width}"
        ));
    }
    let mut cases = Vec::new();
    let mut beyond = 0;
    for (number, frames) in frames.chunks(width).enumerate() {
        let origin = format!("{what} {number} of {name}");
        if frames[width - 1].starts_with(b"beyond=") {
            beyond += 1;
        } else {
            cases.push(case(kind, frames, origin)?);
        }
    }
    Ok((cases, beyond))
}

fn frames(mut bytes: &[u8]) -> Result<Vec<Vec<u8>>, String> {
    let mut frames = Vec::new();
    loop {
        match read_frame(&mut bytes) {
            Ok(Some(frame)) => frames.push(frame),
            Ok(None) => return Ok(frames),
            Err(error) => return Err(format!("frame {}: {error}", frames.len())),
        }
    }
}

const NO_LOOKUP: &str =
    "the answer is not the lines refused=, start= and length= with their numbers";

/// The given answer is what is expected, with work memory and buffer long enough.
fn case(kind: Kind, frames: &[Vec<u8>], origin: String) -> Result<Case, String> {
    let (first, answer) = (frames[0].clone(), &frames[frames.len() - 1]);
    let room = if is_refusal(answer) {
        3
    } else {
        answer.len() + 1
    };
    let (question, expected) = match kind {
        Kind::Texts => {
            let work = work_needed(&first);
            let text = first;
            let question = Question::Read { work, room, text };
            (question, Value::of_call(answer, room))
        }
        Kind::Records => {
            let record = first;
            (
                Question::Write { room, record },
                Value::of_call(answer, room),
            )
        }
        Kind::Lookups => {
            let three = numbers(answer).ok_or(format!("{origin}: {NO_LOOKUP}"))?;
            let record = frames[1].clone();
            (
                Question::Lookup {
                    name: first,
                    record,
                },
                Value::Numbers(three),
            )
        }
    };
    Ok(Case {
        origin,
        question,
        expected,
    })
}

#[cfg(test)]
mod tests {
    use super::*;
    use oracle::frames::write_frame;

    fn file(frames: &[&[u8]]) -> Vec<u8> {
        let mut bytes = Vec::new();
        for frame in frames {
            write_frame(&mut bytes, frame).expect("a vector takes all");
        }
        bytes
    }

    fn error(kind: Kind, bytes: &[u8]) -> String {
        from_frames(kind, bytes, "f").expect_err("a malformed file")
    }

    const REFUSAL: &[u8] = b"refused=6\nline=1\ncolumn=1\n";

    #[test]
    fn texts_and_answers_take_turns() {
        let bytes = file(&[b"X", REFUSAL, b"Y", b"datatype=", b"Z", b"beyond=time\n"]);
        let (cases, beyond) = from_frames(Kind::Texts, &bytes, "f").expect("cases");
        assert_eq!((cases.len(), beyond), (2, 1));
        assert_eq!(cases[1].origin, "text 1 of f");
        let text = b"Y".to_vec();
        let question = Question::Read {
            work: 68,
            room: 10,
            text,
        };
        assert_eq!(cases[1].question, question);
        assert_eq!(cases[0].expected, Value::of_call(REFUSAL, 3));
    }

    #[test]
    fn a_lookup_is_a_name_a_record_and_an_answer() {
        let bytes = file(&[b"a", b"r", b"refused=31\nstart=0\nlength=0\n"]);
        let (cases, _) = from_frames(Kind::Lookups, &bytes, "f").expect("cases");
        assert_eq!(cases[0].expected, Value::Numbers(vec![31, 0, 0]));
    }

    #[test]
    fn a_file_that_is_cut_is_refused() {
        let bytes = file(&[b"X", REFUSAL]);
        let cut = &bytes[..bytes.len() - 1];
        let said = error(Kind::Texts, cut);
        assert_eq!(said, "frame 1: the input ends where a frame should go on");
        let said = error(Kind::Texts, &bytes[..7]);
        assert!(said.starts_with("frame 1: the input ends where the length"));
    }

    #[test]
    fn an_answer_that_is_absent_or_of_another_form_is_refused() {
        let said = error(Kind::Records, &file(&[b"X"]));
        assert_eq!(said, "it has 1 frames, and each record takes 2");
        let said = error(Kind::Lookups, &file(&[b"a", b"r", REFUSAL]));
        assert!(said.starts_with("lookup 0 of f: the answer is not"));
    }
}
