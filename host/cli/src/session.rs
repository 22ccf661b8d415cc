//! A run of the command: where it writes, and the status that it exits with.

use std::io::{self, BufWriter, ErrorKind, Stdout, Write};
use std::process::ExitCode;

use nexus::Refusal;

use crate::args::Format;
use crate::diagnostics::Refused;
use crate::files::Source;
use crate::json::Object;
use crate::terminal::Terminal;

/// Why a verb ends before its end.
#[derive(Debug)]
pub enum Stop {
    /// The command was used wrongly: what is wrong, and the verb whose help says more.
    Wrong(String, Option<&'static str>),
    /// Something else than a refusal makes the work impossible.
    Failed(String),
    /// Nobody reads standard output any more.
    Unread,
}

impl Stop {
    /// Wrong use.
    pub fn wrong(message: &str, verb: Option<&str>) -> Self {
        let known = verb.and_then(|name| crate::verbs::all().find(|verb| verb.name == name));
        Self::Wrong(message.to_string(), known.map(|verb| verb.name))
    }
}

/// What is found of a file.
#[derive(Clone, Copy, Debug, Eq, PartialEq)]
pub enum Outcome {
    /// It is read.
    Read,
    /// It is refused, by this number.
    Refused(u32),
    /// It cannot be read from where it is.
    Unreadable,
}

/// Where a run writes, and what it has met.
pub struct Session {
    out: BufWriter<Stdout>,
    /// Standard output, as a terminal or not.
    pub screen: Terminal,
    /// Standard error, as a terminal or not.
    pub messages: Terminal,
    /// How results are printed.
    pub format: Format,
    refused: bool,
    failed: bool,
    explain: Option<u32>,
}

impl Session {
    /// A run that has met nothing yet.
    pub fn new() -> Self {
        Self {
            out: BufWriter::with_capacity(1 << 16, io::stdout()),
            screen: Terminal::of(&io::stdout()),
            messages: Terminal::of(&io::stderr()),
            format: Format::Text,
            refused: false,
            failed: false,
            explain: None,
        }
    }

    /// Writes a part of the result to standard output.
    pub fn result(&mut self, bytes: &[u8]) -> Result<(), Stop> {
        self.out.write_all(bytes).map_err(unwritten)
    }

    /// Standard output, for results that are written piece by piece.
    pub fn out(&mut self) -> &mut dyn Write {
        &mut self.out
    }

    /// Writes a message to standard error, behind the results so far.
    pub fn message(&mut self, text: &str) -> Result<(), Stop> {
        self.out.flush().map_err(unwritten)?;
        // Where messages cannot be written, nothing can be said about it.
        let _ = io::stderr().lock().write_all(text.as_bytes());
        Ok(())
    }

    /// Shows why the bytes of a source are refused.
    pub fn refuse(&mut self, source: &Source, text: &[u8], refusal: Refusal) -> Result<(), Stop> {
        let name = source.name();
        let refused = Refused {
            name: &name,
            text,
            refusal,
        };
        self.show(source, &refused, refused.hint())
    }

    /// Shows a refusal with a hint: as a message, or as an object of JSON among the results.
    pub fn show(
        &mut self,
        source: &Source,
        refused: &Refused<'_>,
        hint: Option<String>,
    ) -> Result<(), Stop> {
        self.note(&Outcome::Refused(refused.refusal.number));
        match self.format {
            Format::Text => self.message(&refused.shown(&self.messages, hint.as_deref())),
            Format::Json => self.line(&refused.object(&source.operand(), hint.as_deref())),
        }
    }

    /// Says that a source cannot be read: as a message, or as an object of JSON among the results.
    pub fn unreadable(&mut self, source: &Source, error: &io::Error) -> Result<(), Stop> {
        match self.format {
            Format::Text => self.failed(&source.unread(error)),
            Format::Json => {
                self.failed = true;
                let message = crate::files::said(error);
                self.line(&unreadable_object(&source.operand(), &message))
            }
        }
    }

    /// Writes an object of JSON to standard output, on a line of its own.
    pub fn line(&mut self, object: &Object) -> Result<(), Stop> {
        writeln!(self.out, "{object}").map_err(unwritten)
    }

    /// Notes what was found of a file. Of the first refusal more can be said in the end.
    pub fn note(&mut self, outcome: &Outcome) {
        match outcome {
            Outcome::Read => {}
            Outcome::Refused(number) => {
                self.refused = true;
                self.explain.get_or_insert(*number);
            }
            Outcome::Unreadable => self.failed = true,
        }
    }

    /// Notes a file that could not be read or written, and says so.
    pub fn failed(&mut self, message: &str) -> Result<(), Stop> {
        self.failed = true;
        let shown = format!("{}: {message}\n", self.messages.error("error"));
        self.message(&shown)
    }

    /// Ends the run: what stopped it is said, and the status is given. That is 2 where the run
    /// could not be ended; else a refusal goes before a file that could not be read.
    pub fn end(mut self, done: Result<(), Stop>) -> ExitCode {
        let status = match done.and_then(|()| self.flush_all()) {
            Ok(()) | Err(Stop::Unread) if self.refused => 1,
            Ok(()) | Err(Stop::Unread) if self.failed => 2,
            Ok(()) | Err(Stop::Unread) => 0,
            Err(Stop::Failed(message)) => self.ended(&format!("nexus: {message}\n")),
            Err(Stop::Wrong(message, verb)) => {
                let verb = verb.map(|verb| format!(" {verb}")).unwrap_or_default();
                self.ended(&format!(
                    "nexus: {message}\n`nexus{verb} --help` says how it is used\n"
                ))
            }
        };
        ExitCode::from(status)
    }

    fn flush_all(&mut self) -> Result<(), Stop> {
        self.out.flush().map_err(unwritten)?;
        match self.explain {
            Some(number) if self.format == Format::Text => {
                self.message(&format!("`nexus explain {number}` says more\n"))
            }
            _ => Ok(()),
        }
    }

    /// Says why the run ends here; the status for it.
    fn ended(&mut self, why: &str) -> u8 {
        let _ = self.out.flush();
        let _ = io::stderr().lock().write_all(why.as_bytes());
        2
    }
}

impl Default for Session {
    fn default() -> Self {
        Self::new()
    }
}

/// An object of JSON for a source that cannot be read.
pub fn unreadable_object(operand: &str, message: &str) -> Object {
    let object = Object::new().text("file", operand);
    object.text("status", "unreadable").text("message", message)
}

/// What a fault of standard output stops.
pub fn unwritten(error: io::Error) -> Stop {
    match error.kind() {
        ErrorKind::BrokenPipe => Stop::Unread,
        _ => Stop::Failed(format!(
            "standard output cannot be written: {}",
            crate::files::said(&error)
        )),
    }
}
