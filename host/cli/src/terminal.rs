//! What standard output and standard error are: how wide, and whether colours are shown.

use std::io::IsTerminal;
use std::os::fd::AsFd;
use std::process::{Command, Stdio};

/// The columns of messages where nothing says how many there are.
const USUAL: usize = 80;

/// Where something is written to.
#[derive(Clone, Copy, Debug, Eq, PartialEq)]
pub struct Terminal {
    /// Is it a terminal?
    pub live: bool,
    /// Are colours shown?
    pub colours: bool,
    columns: Option<usize>,
}

/// What is shown in a colour.
#[derive(Clone, Copy, Debug, Eq, PartialEq)]
pub enum Colour {
    /// What is wrong.
    Fault,
    /// A hint.
    Hint,
    /// What frames a text.
    Frame,
    /// A title.
    Title,
    /// What is less than the rest.
    Faint,
    /// A set of states.
    Set,
}

impl Terminal {
    /// What the stream is. COLUMNS says how wide it is; else the terminal is asked.
    pub fn of(stream: &(impl IsTerminal + AsFd)) -> Self {
        let live = stream.is_terminal();
        let columns = columns_given().or_else(|| live.then(|| columns_of(stream)).flatten());
        Self {
            live,
            colours: live && colours_wanted(),
            columns,
        }
    }

    /// No terminal, so many columns wide.
    pub fn plain(columns: Option<usize>) -> Self {
        Self {
            live: false,
            colours: false,
            columns,
        }
    }

    /// How many columns a table may take: as many as it needs where it is not on a terminal.
    pub fn limit(&self) -> Option<usize> {
        match self.live {
            true => Some(self.columns.unwrap_or(USUAL)),
            false => self.columns,
        }
    }

    /// How many columns a message may take.
    pub fn columns(&self) -> usize {
        self.columns.unwrap_or(USUAL)
    }

    /// The text in a colour, where colours are shown.
    pub fn paint(&self, colour: Colour, text: &str) -> String {
        if !self.colours || text.is_empty() {
            return text.to_string();
        }
        let code = match colour {
            Colour::Fault => "1;31",
            Colour::Hint => "1;36",
            Colour::Frame => "34",
            Colour::Title => "1",
            Colour::Faint => "2",
            Colour::Set => "33",
        };
        format!("\u{1b}[{code}m{text}\u{1b}[0m")
    }

    /// A word for what is wrong.
    pub fn error(&self, word: &str) -> String {
        self.paint(Colour::Fault, word)
    }
}

/// COLUMNS, where it is a number from 1 on.
fn columns_given() -> Option<usize> {
    let given = std::env::var("COLUMNS").ok()?;
    given.parse().ok().filter(|columns| *columns > 0)
}

/// NO_COLOR that is not empty says no, and a terminal that can show none.
fn colours_wanted() -> bool {
    let refused = std::env::var_os("NO_COLOR").is_some_and(|value| !value.is_empty());
    let dumb = std::env::var_os("TERM").is_some_and(|value| value == "dumb");
    !refused && !dumb
}

/// The columns of the terminal, which `stty` knows: so no call of the system is made by hand.
fn columns_of(stream: &impl AsFd) -> Option<usize> {
    let terminal = stream.as_fd().try_clone_to_owned().ok()?;
    let mut stty = Command::new("stty");
    stty.arg("size").stdin(terminal).stderr(Stdio::null());
    let printed = stty.output().ok()?.stdout;
    let printed = String::from_utf8(printed).ok()?;
    let columns = printed.split_whitespace().nth(1)?;
    columns.parse().ok().filter(|columns| *columns > 0)
}

#[cfg(test)]
mod tests {
    use super::*;

    #[test]
    fn colours_are_shown_where_they_are() {
        let plain = Terminal::plain(None);
        assert_eq!(plain.paint(Colour::Fault, "x"), "x");
        let coloured = Terminal {
            colours: true,
            ..plain
        };
        assert_eq!(coloured.paint(Colour::Fault, "x"), "\u{1b}[1;31mx\u{1b}[0m");
        assert_eq!(coloured.paint(Colour::Fault, ""), "");
    }

    #[test]
    fn a_table_is_as_wide_as_it_needs_but_on_a_terminal() {
        let plain = Terminal::plain(None);
        assert_eq!((plain.limit(), plain.columns()), (None, 80));
        let given = Terminal::plain(Some(30));
        assert_eq!((given.limit(), given.columns()), (Some(30), 30));
        let live = Terminal {
            live: true,
            ..plain
        };
        assert_eq!((live.limit(), live.columns()), (Some(80), 80));
    }
}
