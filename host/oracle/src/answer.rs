//! The answers of document 01: read, write and lookup, with their refusals in order.

use crate::bounds::{Beyond, beyond};
use crate::form::form;
use crate::lexer::{Kind, lex};
use crate::lookup::lookup as find;
use crate::messages;
use crate::nexus::{self, Error};
use crate::record::{spell, unspell};

/// The longest text, and the longest written form.
pub const TEXT_LIMIT: usize = 1_048_576;

/// A length of work memory or of a buffer that is always enough.
pub const ENOUGH: u64 = u64::MAX;

#[derive(Clone, Copy, Debug, Eq, PartialEq)]
pub struct Refusal {
    pub number: u32,
    pub line: usize,
    pub column: usize,
}

#[derive(Clone, Debug, Eq, PartialEq)]
pub enum Answer {
    Bytes(Vec<u8>),
    Refused(Refusal),
    /// The text was not given to the reader, which cannot bear it.
    Beyond(Beyond),
}

/// The record of a text.
pub fn read(text: &[u8], work: u64, buffer: u64) -> Answer {
    if text.len() > TEXT_LIMIT {
        return refused(1);
    }
    if work < 4 * text.len() as u64 + 64 {
        return refused(2);
    }
    let Ok(text) = std::str::from_utf8(text) else {
        return refused(3);
    };
    if let Some(beyond) = beyond(text) {
        return Answer::Beyond(beyond);
    }
    match nexus::parse(text) {
        Ok(reading) => within(spell(&reading), buffer),
        Err(error) => Answer::Refused(refusal(&error)),
    }
}

/// The written form of a record.
pub fn write(record: &[u8], buffer: u64) -> Answer {
    let Some(reading) = unspell(record) else {
        return refused(31);
    };
    let form = form(&reading);
    if form.len() > TEXT_LIMIT {
        return refused(32);
    }
    within(form, buffer)
}

/// The lines of a lookup's answer.
pub fn lookup(name: &[u8], record: &[u8]) -> Vec<u8> {
    let (number, start, length) = match find(name, record) {
        Ok(stretch) => (0, stretch.start, stretch.length),
        Err(number) => (number, 0, 0),
    };
    format!("refused={number}\nstart={start}\nlength={length}\n").into_bytes()
}

/// The tokens of a text, one to a line: kind, line, column and the text's bytes in hexadecimal.
pub fn tokens(text: &[u8]) -> Answer {
    if text.len() > TEXT_LIMIT {
        return refused(1);
    }
    let Ok(text) = std::str::from_utf8(text) else {
        return refused(3);
    };
    match lex(text) {
        Err(error) => Answer::Refused(refusal(&error)),
        Ok(tokens) => {
            let lines = tokens.iter().map(|token| {
                let hex: String = token.text.bytes().map(|b| format!("{b:02x}")).collect();
                let kind = kind(token.kind);
                format!("{kind} {} {} {hex}\n", token.line, token.column)
            });
            Answer::Bytes(lines.collect::<String>().into_bytes())
        }
    }
}

fn kind(kind: Kind) -> &'static str {
    match kind {
        Kind::Word => "WORD",
        Kind::Quoted => "QUOTED",
        Kind::String => "STRING",
        Kind::Punctuation(_) => "PUNCTUATION",
        Kind::Newline => "NEWLINE",
    }
}

/// The refusal of a reader's error: the number of its message, at the reader's place.
pub fn refusal(error: &Error) -> Refusal {
    let number = messages::number(&error.message)
        .unwrap_or_else(|| panic!("no number for the message {:?}", error.message));
    Refusal {
        number,
        line: error.line,
        column: error.column,
    }
}

fn refused(number: u32) -> Answer {
    Answer::Refused(nowhere(number))
}

/// A refusal without a place.
fn nowhere(number: u32) -> Refusal {
    Refusal {
        number,
        line: 0,
        column: 0,
    }
}

/// Bytes that a buffer of so many has room for, or 30.
pub fn within(bytes: Vec<u8>, buffer: u64) -> Answer {
    if bytes.len() as u64 > buffer {
        return refused(30);
    }
    Answer::Bytes(bytes)
}

impl Answer {
    /// The answer as a frame holds it.
    pub fn into_bytes(self) -> Vec<u8> {
        match self {
            Self::Bytes(bytes) => bytes,
            Self::Refused(r) => format!(
                "refused={}\nline={}\ncolumn={}\n",
                r.number, r.line, r.column
            )
            .into_bytes(),
            Self::Beyond(Beyond::Memory) => b"beyond=memory\n".to_vec(),
            Self::Beyond(Beyond::Time) => b"beyond=time\n".to_vec(),
        }
    }
}
