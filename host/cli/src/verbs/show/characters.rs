//! The characters: their types, labels and state labels.

use std::io::{self, Write};

use nexus::{Character, View};

use crate::terminal::{Colour, Terminal};
use crate::width;

/// A longer label is cut, where there are state labels behind it, and one of more than a third of
/// the terminal.
const LONGEST_LABEL: usize = 30;

/// Shows a line for each character; those in a row that have a type only share one.
pub fn show(
    view: View<'_>,
    limit: Option<usize>,
    screen: &Terminal,
    out: &mut dyn Write,
) -> io::Result<()> {
    let lines = lines(view);
    let numbers = lines.iter().map(|line| line.numbers.len()).max();
    let labels = lines.iter().map(|line| width::of(&line.label)).max();
    let numbers = numbers.unwrap_or(0);
    let most = limit.map_or(LONGEST_LABEL, |columns| LONGEST_LABEL.min(columns / 3));
    let labels = labels.unwrap_or(0).min(most);
    writeln!(out, "\n{}", screen.paint(Colour::Title, "Characters"))?;
    for line in lines {
        let label = match line.states.is_empty() {
            true => line.label,
            false => width::padded(&width::cut(&line.label, labels), labels),
        };
        let rest = format!("{:<5}  {label}  {}", line.order, line.states);
        let whole = format!("{:>numbers$}  {}", line.numbers, rest.trim_end());
        let shown = match limit {
            Some(columns) => width::cut(&whole, columns),
            None => whole,
        };
        writeln!(out, "{shown}")?;
    }
    Ok(())
}

struct Line {
    numbers: String,
    order: &'static str,
    label: String,
    states: String,
}

/// The lines, those of characters without labels joined where they have one type.
fn lines(view: View<'_>) -> Vec<Line> {
    let mut lines = Vec::new();
    // The first of those that are to be joined.
    let mut start: Option<Character<'_>> = None;
    let mut last: Option<Character<'_>> = None;
    for character in view.characters() {
        let joins = start.is_some_and(|start| {
            is_plain(start) && is_plain(character) && start.ordering() == character.ordering()
        });
        if !joins {
            lines.extend(start.zip(last).map(|(start, last)| line(view, start, last)));
            start = Some(character);
        }
        last = Some(character);
    }
    lines.extend(start.zip(last).map(|(start, last)| line(view, start, last)));
    lines
}

/// Has the character a type only?
fn is_plain(character: Character<'_>) -> bool {
    character.label().is_none() && character.state_labels().len() == 0
}

/// The line for the characters from one to another.
fn line(view: View<'_>, start: Character<'_>, last: Character<'_>) -> Line {
    let (first, end) = (start.number().get(), last.number().get());
    let numbers = match first == end {
        true => first.to_string(),
        false => format!("{first}-{end}"),
    };
    let symbols = view.symbols().as_str().chars();
    let states = start.state_labels().zip(symbols);
    let states: Vec<String> = states
        .map(|(label, symbol)| format!("{symbol} {}", width::safe(&label.to_string())))
        .collect();
    Line {
        numbers,
        order: start.ordering().word(),
        label: start
            .label()
            .map_or(String::new(), |label| width::safe(&label.to_string())),
        states: states.join(", "),
    }
}
