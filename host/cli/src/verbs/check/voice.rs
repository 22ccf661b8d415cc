//! What is said of each file.

use nexus::Refusal;

use crate::args::Format;
use crate::diagnostics::Refused;
use crate::files::Source;
use crate::json::Object;
use crate::session::{Session, Stop, unreadable_object};
use crate::terminal::Terminal;

/// How it is said.
pub struct Voice {
    /// For people, or for programs.
    pub format: Format,
    /// Is nothing said but what cannot be read?
    pub quiet: bool,
    /// Where messages go.
    pub terminal: Terminal,
}

impl Voice {
    /// Of a file that is read.
    pub fn read(&self, source: &Source) -> String {
        match self.format {
            Format::Json if !self.quiet => {
                let object = Object::new().text("file", &source.operand());
                format!("{}\n", object.text("status", "read"))
            }
            _ => String::new(),
        }
    }

    /// Of a file that is refused.
    pub fn refused(&self, source: &Source, text: &[u8], refusal: Refusal) -> String {
        let name = source.name();
        let refused = Refused {
            name: &name,
            text,
            refusal,
        };
        let hint = refused.hint();
        match self.format {
            _ if self.quiet => String::new(),
            Format::Text => refused.shown(&self.terminal, hint.as_deref()),
            Format::Json => {
                let object = refused.object(&source.operand(), hint.as_deref());
                format!("{object}\n")
            }
        }
    }

    /// Of a file that cannot be read.
    pub fn unreadable(&self, source: &Source, fault: &str) -> String {
        match self.format {
            Format::Text => {
                let error = self.terminal.error("error");
                format!("{error}: {} cannot be read: {fault}\n", source.name())
            }
            Format::Json => format!("{}\n", unreadable_object(&source.operand(), fault)),
        }
    }

    /// Says it: messages for people, results for programs.
    pub fn say(&self, said: &str, session: &mut Session) -> Result<(), Stop> {
        match self.format {
            Format::Text => session.message(said),
            Format::Json => session.result(said.as_bytes()),
        }
    }
}
