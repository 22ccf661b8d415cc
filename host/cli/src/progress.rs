//! A bar that shows how far the work is, on a terminal only.

use std::io::{self, Write};
use std::time::{Duration, Instant};

use crate::terminal::Terminal;

/// The bar is drawn anew after so long.
const PAUSE: Duration = Duration::from_millis(80);

/// The most columns of the bar itself; it takes a third of the terminal.
const LONGEST: usize = 30;

/// How far the work is.
pub struct Progress {
    live: bool,
    columns: usize,
    total: usize,
    drawn: Option<Instant>,
}

impl Progress {
    /// The progress of work on so many files, shown where messages go to a terminal.
    pub fn new(terminal: &Terminal, total: usize) -> Self {
        Self {
            live: terminal.live,
            columns: terminal.columns(),
            total,
            drawn: None,
        }
    }

    /// Draws the bar, where it is time for it.
    pub fn draw(&mut self, done: usize, refused: usize) {
        let waits = self.drawn.is_some_and(|drawn| drawn.elapsed() < PAUSE);
        if !self.live || waits {
            return;
        }
        self.drawn = Some(Instant::now());
        let length = (self.columns / 3).min(LONGEST);
        let line = line(done, self.total, refused, length);
        put(&format!(
            "\r{}\u{1b}[K",
            crate::width::cut(&line, self.columns.saturating_sub(1))
        ));
    }

    /// Takes the bar away, so that something else can be written.
    pub fn clear(&mut self) {
        if self.drawn.take().is_some() {
            put("\r\u{1b}[K");
        }
    }
}

fn put(text: &str) {
    let mut stream = io::stderr().lock();
    let _ = stream.write_all(text.as_bytes());
    let _ = stream.flush();
}

/// The bar, in so many columns, and its numbers.
fn line(done: usize, total: usize, refused: usize, length: usize) -> String {
    let full = (done * length).checked_div(total).unwrap_or(length);
    let bar = "#".repeat(full) + &"-".repeat(length - full);
    let refused = match refused {
        0 => String::new(),
        n => format!(", {n} refused"),
    };
    format!("[{bar}] {done} of {total} files{refused}")
}

#[cfg(test)]
mod tests {
    use super::*;

    #[test]
    fn the_bar_grows() {
        assert_eq!(line(0, 4, 0, 8), "[--------] 0 of 4 files");
        assert_eq!(line(2, 4, 0, 8), "[####----] 2 of 4 files");
        assert_eq!(line(4, 4, 1, 8), "[########] 4 of 4 files, 1 refused");
        assert_eq!(line(0, 0, 0, 3), "[###] 0 of 0 files");
    }
}
