//! A difference, in words.

use std::fmt;

use oracle::answer::Answer;

/// A call whose answer is not the oracle's, or that has left something else behind.
#[derive(Clone, Debug, Eq, PartialEq)]
pub struct Difference {
    /// The call.
    pub call: String,
    pub expected: String,
    pub given: String,
}

impl fmt::Display for Difference {
    fn fmt(&self, f: &mut fmt::Formatter<'_>) -> fmt::Result {
        writeln!(f, "call      {}", self.call)?;
        writeln!(f, "expected  {}", self.expected)?;
        write!(f, "given     {}", self.given)
    }
}

/// A difference, where something is wrong.
pub fn judged(
    call: impl FnOnce() -> String,
    expected: impl FnOnce() -> String,
    given: impl fmt::Debug,
    wrong: Vec<String>,
) -> Result<(), Difference> {
    if wrong.is_empty() {
        return Ok(());
    }
    Err(Difference {
        call: call(),
        expected: expected(),
        given: format!("{given:?}; {}", wrong.join("; ")),
    })
}

/// A difference, where the answers to a plain call differ.
pub fn compared(call: &str, expected: &Answer, given: &Answer) -> Result<(), Difference> {
    if given == expected {
        return Ok(());
    }
    Err(Difference {
        call: call.to_string(),
        expected: words(expected),
        given: words(given),
    })
}

pub fn words(answer: &Answer) -> String {
    match answer {
        Answer::Bytes(bytes) => format!("{} bytes: {}", bytes.len(), shown(bytes)),
        Answer::Refused(refusal) => format!("{refusal:?}"),
        Answer::Beyond(beyond) => format!("{beyond:?}"),
    }
}

/// Bytes, escaped; of many, the first.
pub fn shown(bytes: &[u8]) -> String {
    const MOST: usize = 2_000;
    let dots = if bytes.len() > MOST { ".." } else { "" };
    let first = bytes[..bytes.len().min(MOST)].escape_ascii();
    format!("\"{first}\"{dots}")
}
