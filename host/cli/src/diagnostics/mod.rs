//! A refusal as compilers show theirs: the file, the place, its line with a mark under the place, a
//! sentence, and a hint where there is an obvious one.

mod hints;
mod snippet;
mod words;

pub use words::{leads_line, line_of, word_at};

use nexus::Refusal;

use crate::json::Object;
use crate::terminal::{Colour, Terminal};
use crate::width;
use hints::Seen;

/// A refusal, and what was refused.
#[derive(Clone, Copy, Debug)]
pub struct Refused<'a> {
    /// The name of what was refused, safe to show.
    pub name: &'a str,
    /// Its bytes.
    pub text: &'a [u8],
    /// Why.
    pub refusal: Refusal,
}

impl Refused<'_> {
    /// What is shown of it, with this hint.
    pub fn shown(&self, terminal: &Terminal, hint: Option<&str>) -> String {
        let mut shown = self.title(terminal);
        let margin = match self.place() {
            Some(line) => {
                let margin = " ".repeat(self.refusal.line.to_string().len());
                shown.push_str(&self.framed(terminal, &margin, line));
                margin
            }
            None => {
                let arrow = terminal.paint(Colour::Frame, " -->");
                shown.push_str(&format!("{arrow} {}\n", self.name));
                " ".to_string()
            }
        };
        if let Some(hint) = hint {
            shown.push_str(&hinted(terminal, &margin, hint));
        }
        shown.push('\n');
        shown
    }

    /// An object of JSON that has it, with this hint.
    pub fn object(&self, file: &str, hint: Option<&str>) -> Object {
        let Refusal {
            number,
            line,
            column,
        } = self.refusal;
        let object = Object::new().text("file", file).text("status", "refused");
        let object = object.value("number", number).value("line", line);
        let object = object.value("column", column);
        let object = object.text("message", self.refusal.sentence());
        match hint {
            Some(hint) => object.text("hint", hint),
            None => object,
        }
    }

    /// The hint, where there is one.
    pub fn hint(&self) -> Option<String> {
        let line = self.place().unwrap_or_default();
        let column = self.refusal.column.max(1);
        hints::hint(&Seen {
            number: self.refusal.number,
            text: self.text,
            word: word_at(line, column),
            leads: leads_line(line, column),
        })
    }

    /// The number and the sentence.
    fn title(&self, terminal: &Terminal) -> String {
        let number = terminal.error(&format!("error[{}]", self.refusal.number));
        let sentence = terminal.paint(Colour::Title, self.refusal.sentence());
        format!("{number}: {sentence}\n")
    }

    /// The line of the place, where the refusal has one.
    fn place(&self) -> Option<&str> {
        let text = std::str::from_utf8(self.text).ok()?;
        match self.refusal.line {
            0 => None,
            line => Some(line_of(text, line)),
        }
    }

    /// The file and the place, the line, and the mark under the place.
    fn framed(&self, terminal: &Terminal, margin: &str, line: &str) -> String {
        let Refusal {
            line: number,
            column,
            ..
        } = self.refusal;
        let room = terminal.columns().saturating_sub(margin.len() + 4).max(20);
        let cut = snippet::cut(line, column, self.marked(line), room);
        let bar = terminal.paint(Colour::Frame, "|");
        let head = terminal.paint(Colour::Frame, &format!("{margin}-->"));
        let digits = terminal.paint(Colour::Frame, &number.to_string());
        let blanks = " ".repeat(cut.before);
        let marks = terminal.paint(Colour::Fault, &"^".repeat(cut.marks));
        let place = format!("{head} {}:{number}:{column}\n{margin} {bar}", self.name);
        let source = format!("{digits} {bar} {}", cut.line);
        let source = source.trim_end();
        format!("{place}\n{source}\n{margin} {bar} {blanks}{marks}\n")
    }

    /// What is marked: the word at the place, or only the mark that opens what is left open.
    fn marked<'t>(&self, line: &'t str) -> &'t str {
        let word = word_at(line, self.refusal.column);
        match (self.refusal.number, word.char_indices().nth(1)) {
            (4 | 5, Some((second, _))) => &word[..second],
            _ => word,
        }
    }
}

/// A hint, in as many lines as it needs.
fn hinted(terminal: &Terminal, margin: &str, hint: &str) -> String {
    let frame = terminal.paint(Colour::Frame, "=");
    let word = terminal.paint(Colour::Hint, "hint");
    let room = terminal.columns().saturating_sub(margin.len() + 9).max(20);
    let indent = format!("\n{margin}         ");
    let lines = width::filled(hint, room).join(&indent);
    format!("{margin} {frame} {word}: {lines}\n")
}
