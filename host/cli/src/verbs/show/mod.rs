//! `nexus show`: a matrix as a table.

mod characters;
mod layout;
mod matrix;
mod signs;

use std::io::Write;

use nexus::{DataType, Record, Refusal, View};

use super::{Flag, Verb};
use crate::args::Asked;
use crate::files::Source;
use crate::session::{Session, Stop, unwritten};
use crate::terminal::{Colour, Terminal};
use crate::width;

/// The verb.
pub static VERB: Verb = Verb {
    name: "show",
    operands: "FILE",
    about: "show a matrix as a table, and its characters",
    more: "\
FILE is a NEXUS file or a record. Each taxon is a line, with its cells under the numbers of their
characters: the symbols of states, `{..}` where it is one of several (of DNA its IUPAC code), `(..)`
where it is all of them, `?` missing and `-` a gap. Then come the characters with their types,
labels and state labels.

A matrix that is wider than the terminal is cut, and a note says what is left out. Where the table
does not go to a terminal it is whole. COLUMNS says how many columns there are, if the terminal is
not to be asked. Colours are shown on a terminal, and not where NO_COLOR is set.",
    flags: &[
        Flag {
            name: "--from",
            value: Some("NUMBER"),
            about: "begin with the character of this number",
        },
        Flag {
            name: "--wide",
            value: None,
            about: "cut nothing",
        },
    ],
    example: "\
$ nexus show primates.nex
$ nexus show --from 100 primates.nex",
    needs_archive: true,
    run,
};

fn run(asked: &Asked, session: &mut Session) -> Result<(), Stop> {
    let [operand] = asked.exactly(&VERB)?;
    let from = asked.number("--from", VERB.name)?.unwrap_or(1);
    let source = Source::of(operand);
    let bytes = match source.whole() {
        Ok(bytes) => bytes,
        Err(error) => return session.unreadable(&source, &error),
    };
    let name = source.name();
    let record = match record_of(bytes) {
        Ok(record) => record,
        Err((text, refusal)) => return session.refuse(&source, &text, refusal),
    };
    let view = record.view();
    if from > view.character_count() {
        let message = format!("there are {} characters", view.character_count());
        return Err(Stop::wrong(&message, Some(VERB.name)));
    }
    let screen = session.screen;
    let limit = screen.limit().filter(|_| !asked.has("--wide"));
    let title = title(&name, view, &screen, limit);
    session.result(title.as_bytes())?;
    let out: &mut dyn Write = session.out();
    matrix::show(view, from - 1, limit, &screen, out).map_err(unwritten)?;
    characters::show(view, limit, &screen, out).map_err(unwritten)
}

/// The record of a file that has one, or that of a NEXUS text; else the bytes and their refusal.
fn record_of(bytes: Vec<u8>) -> Result<Record, (Vec<u8>, Refusal)> {
    let read = match bytes.starts_with(b"datatype=") {
        true => Record::from_bytes(bytes.clone()),
        false => nexus::read(&bytes),
    };
    read.map_err(|refusal| (bytes, refusal))
}

/// The file's name, and what the matrix is.
fn title(name: &str, view: View<'_>, screen: &Terminal, limit: Option<usize>) -> String {
    let name = match limit {
        Some(columns) => width::cut(name, columns),
        None => name.to_string(),
    };
    let symbols = match view.data_type() {
        DataType::Dna => String::new(),
        DataType::Standard => format!(", symbols {}", view.symbols().as_str()),
    };
    format!(
        "{}\n{}{symbols}, {}, {}\n\n",
        screen.paint(Colour::Title, &name),
        view.data_type().word(),
        counted(view.taxon_count(), "taxon", "taxa"),
        counted(view.character_count(), "character", "characters"),
    )
}

fn counted(count: usize, one: &str, more: &str) -> String {
    match count {
        1 => format!("1 {one}"),
        n => format!("{n} {more}"),
    }
}
