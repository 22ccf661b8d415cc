//! `nexus explain`: what a refusal means.

use nexus::refusals::{self, Call, Entry, Example};

use super::Verb;
use crate::args::Asked;
use crate::diagnostics::Refused;
use crate::session::{Session, Stop};
use crate::terminal::{Colour, Terminal};
use crate::width;

/// The verb.
pub static VERB: Verb = Verb {
    name: "explain",
    operands: "[NUMBER]",
    about: "say what a refusal means and how to mend it",
    more: "\
It prints what the refusal with this number means, a small text that is refused so, and how it is
mended. Without a number it lists all refusals.",
    flags: &[],
    example: "\
$ nexus explain 22",
    needs_archive: false,
    run,
};

fn run(asked: &Asked, session: &mut Session) -> Result<(), Stop> {
    if asked.operands.is_empty() {
        return session.result(list().as_bytes());
    }
    let [operand] = asked.exactly(&VERB)?;
    let number = operand.to_str().and_then(|number| number.parse().ok());
    let Some(entry) = number.and_then(refusals::entry) else {
        let last = refusals::all().last().map_or(0, |entry| entry.number);
        let message = format!("refusals have numbers from 1 to {last}");
        return Err(Stop::wrong(&message, Some(VERB.name)));
    };
    let said = explained(entry, &session.screen);
    session.result(said.as_bytes())
}

/// A line for each refusal.
fn list() -> String {
    let lines = refusals::all().map(|entry| format!("{:>2}  {}\n", entry.number, entry.title));
    lines.collect()
}

/// All that there is to say of a refusal.
fn explained(entry: &Entry, screen: &Terminal) -> String {
    let title = |text: &str| screen.paint(Colour::Title, text);
    let heading = format!("{}: {}", entry.number, entry.title);
    let parts = [
        title(&heading),
        entry.sentence.to_string(),
        filled(entry.meaning, screen),
        filled(&format!("Its place: {}", entry.place), screen),
        shown(&title("Refused"), &entry.refused),
        refused(entry, screen),
        title("How to mend it"),
        filled(entry.mend, screen),
        shown(&title("Mended"), &entry.mended),
    ];
    let parts = parts.iter().filter(|part| !part.is_empty());
    let parts: Vec<&str> = parts.map(|part| part.trim_end()).collect();
    parts.join("\n\n") + "\n"
}

/// The refusal of the example, as the command shows it, where it has a place.
fn refused(entry: &Entry, screen: &Terminal) -> String {
    if entry.at == (0, 0) {
        return String::new();
    }
    let text = entry.refused.bytes();
    let refused = Refused {
        name: "example",
        text: &text,
        refusal: entry.refusal(),
    };
    refused.shown(screen, refused.hint().as_deref())
}

/// An example, with the call that it is for.
fn shown(title: &str, example: &Example) -> String {
    let call = match example.call() {
        Call::Read => String::new(),
        Call::ReadInto { work, buffer } => {
            format!(", read with work memory of {work} numbers and a buffer of {buffer} bytes")
        }
        Call::Write => ", a record that is written".to_string(),
        Call::Lookup(name) => format!(", a record in which \"{name}\" is looked up"),
    };
    let text = example.to_string();
    let lines = text.lines().map(|line| format!("    {line}\n"));
    format!("{title}{call}:\n\n{}", lines.collect::<String>())
}

/// The words in lines that are as wide as the screen, and 80 columns at most.
fn filled(text: &str, screen: &Terminal) -> String {
    width::filled(text, screen.columns().min(80)).join("\n")
}
