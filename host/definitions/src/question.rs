//! A question to a runner of the definitions, and what the oracle answers.

use oracle::answer::{self, Answer};

use crate::value::{Value, antt_bytes, escaped};

#[derive(Clone, Debug, Eq, PartialEq)]
pub enum Question {
    Read {
        work: u64,
        room: usize,
        text: Vec<u8>,
    },
    Write {
        room: usize,
        record: Vec<u8>,
    },
    Lookup {
        name: Vec<u8>,
        record: Vec<u8>,
    },
}

/// A question and the value that its runner must give.
#[derive(Clone, Debug)]
pub struct Case {
    /// Where the question comes from.
    pub origin: String,
    pub question: Question,
    pub expected: Value,
}

impl Question {
    /// The runner of Run.antt that it is put to.
    pub fn runner(&self) -> &'static str {
        match self {
            Self::Read { .. } => "run_read",
            Self::Write { .. } => "run_write",
            Self::Lookup { .. } => "run_lookup",
        }
    }

    /// The arguments of the runner.
    pub fn arguments(&self) -> String {
        match self {
            Self::Read { work, room, text } => format!("{work} {room} {}", antt_bytes(text)),
            Self::Write { room, record } => format!("{room} {}", antt_bytes(record)),
            Self::Lookup { name, record } => {
                format!("{} {}", antt_bytes(name), antt_bytes(record))
            }
        }
    }

    /// The same question with a buffer of another length.
    pub fn with_room(&self, length: usize) -> Self {
        let mut question = self.clone();
        match &mut question {
            Self::Read { room, .. } | Self::Write { room, .. } => *room = length,
            Self::Lookup { .. } => {}
        }
        question
    }

    /// The question in words.
    pub fn words(&self) -> String {
        match self {
            Self::Read { work, room, text } => {
                let text = escaped(text);
                format!("read with work memory {work} and a buffer of {room}: {text}")
            }
            Self::Write { room, record } => {
                format!("write with a buffer of {room}: {}", escaped(record))
            }
            Self::Lookup { name, record } => {
                format!("lookup of {} in {}", escaped(name), escaped(record))
            }
        }
    }

    /// About how long antt computes, beside other questions.
    pub fn cost(&self) -> usize {
        200 + match self {
            Self::Read { text, .. } => 5 * text.len(),
            Self::Write { record, .. } => 2 * record.len(),
            Self::Lookup { name, record } => name.len() + record.len(),
        }
    }

    /// The question with the oracle's answer; none where the text is beyond the reader.
    pub fn asked(self, origin: String) -> Option<Case> {
        let expected = match &self {
            Self::Read { work, room, text } => {
                Self::called(answer::read(text, *work, *room as u64), *room)?
            }
            Self::Write { room, record } => {
                Self::called(answer::write(record, *room as u64), *room)?
            }
            Self::Lookup { name, record } => {
                let lines = answer::lookup(name, record);
                Value::Numbers(numbers(&lines).expect("an answer of three lines"))
            }
        };
        Some(Case {
            origin,
            question: self,
            expected,
        })
    }

    fn called(answer: Answer, room: usize) -> Option<Value> {
        if let Answer::Beyond(_) = answer {
            return None;
        }
        Some(Value::of_call(&answer.into_bytes(), room))
    }
}

/// The three numbers in the lines of a lookup's answer.
pub fn numbers(lines: &[u8]) -> Option<Vec<u64>> {
    let text = std::str::from_utf8(lines).ok()?.strip_suffix('\n')?;
    let lines: Vec<&str> = text.split('\n').collect();
    let keys = ["refused=", "start=", "length="];
    if lines.len() != keys.len() {
        return None;
    }
    let number = |(key, line): (&str, &str)| line.strip_prefix(key)?.parse().ok();
    keys.into_iter().zip(lines).map(number).collect()
}

/// The work memory that a text needs, by document 01.
pub fn work_needed(text: &[u8]) -> u64 {
    4 * text.len() as u64 + 64
}

#[cfg(test)]
mod tests {
    use super::*;

    #[test]
    fn a_lookup_has_three_numbers() {
        let lines = b"refused=0\nstart=62\nlength=7\n";
        assert_eq!(numbers(lines), Some(vec![0, 62, 7]));
        assert_eq!(numbers(b"refused=0\nstart=62\n"), None);
        assert_eq!(numbers(b"refused=0\nstart=62\nlength=x\n"), None);
        assert_eq!(numbers(b"refused=0\nlength=7\nstart=62\n"), None);
    }

    #[test]
    fn the_oracle_gives_what_is_expected() {
        let read = |work| Question::Read {
            work,
            room: 1,
            text: b"X".to_vec(),
        };
        let printed = |question: Question| question.asked(String::new()).expect("a case").expected;
        let no_nexus = Value::of_call(b"refused=6\nline=1\ncolumn=1\n", 1);
        assert_eq!(printed(read(68)), no_nexus);
        let work_short = Value::of_call(b"refused=2\nline=0\ncolumn=0\n", 1);
        assert_eq!(printed(read(67)), work_short);
    }

    #[test]
    fn a_question_is_written_for_antt() {
        let lookup = Question::Lookup {
            name: b"a".to_vec(),
            record: Vec::new(),
        };
        assert_eq!(lookup.runner(), "run_lookup");
        assert_eq!(lookup.arguments(), "(97 ∷ []) []");
        assert_eq!(lookup.words(), "lookup of \"a\" in \"\"");
    }
}
