//! The table: a line for each taxon.

use std::io::{self, Write};

use nexus::View;

use super::layout::Layout;
use super::signs::{Met, Signs};
use crate::terminal::{Colour, Terminal};
use crate::width;

/// A longer name is cut.
const LONGEST_NAME: usize = 40;

/// Shows the cells of all taxa from a character on, counting from 0, in so many columns.
pub fn show(
    view: View<'_>,
    first: usize,
    limit: Option<usize>,
    screen: &Terminal,
    out: &mut dyn Write,
) -> io::Result<()> {
    let signs = Signs::of(view);
    let names = names_width(view, limit);
    let room = limit.map(|columns| columns.saturating_sub(names + 2));
    let layout = Layout::new(first, &widths(view, first, room, signs), room);
    let table = Table {
        view,
        signs,
        names,
        layout,
        screen,
    };
    let ruler = screen.paint(Colour::Faint, &table.layout.ruler());
    writeln!(out, "{}  {ruler}", " ".repeat(names))?;
    let met = table.rows(out)?;
    table.notes(met, limit, out)
}

/// The width of the names: that of the longest, and a third of the terminal at most.
fn names_width(view: View<'_>, limit: Option<usize>) -> usize {
    let most = limit.map_or(LONGEST_NAME, |columns| (columns / 3).min(LONGEST_NAME));
    let names = view.taxa().map(|taxon| taxon.name().to_string());
    let longest = names.map(|name| width::of(&width::safe(&name))).max();
    longest.unwrap_or(0).min(most.max(1))
}

/// The width of each column from the first on. No more are looked at than can have room.
fn widths(view: View<'_>, first: usize, room: Option<usize>, signs: Signs) -> Vec<usize> {
    let most = room.map_or(usize::MAX, |room| room.max(1));
    let count = (view.character_count() - first).min(most);
    let mut widths = vec![1; count];
    for taxon in view.taxa() {
        let cells = taxon.cells().skip(first);
        for (width, cell) in widths.iter_mut().zip(cells) {
            *width = signs.width(&cell).max(*width);
        }
    }
    widths
}

struct Table<'r> {
    view: View<'r>,
    signs: Signs,
    names: usize,
    layout: Layout,
    screen: &'r Terminal,
}

impl Table<'_> {
    /// The lines of all taxa, and which kinds of cells there were.
    fn rows(&self, out: &mut dyn Write) -> io::Result<Met> {
        let mut met = Met::default();
        for taxon in self.view.taxa() {
            let name = width::cut(&width::safe(&taxon.name().to_string()), self.names);
            let mut line = width::padded(&name, self.names) + "  ";
            let cells = taxon.cells().skip(self.layout.first);
            let mut behind = 0;
            for (place, (width, cell)) in self.layout.widths.iter().zip(cells).enumerate() {
                met.note(&cell, self.signs);
                line.push_str(&" ".repeat(behind + self.layout.blanks(place)));
                line.push_str(&self.signs.shown(&cell, self.screen));
                behind = width - self.signs.width(&cell);
            }
            writeln!(out, "{line}")?;
        }
        Ok(met)
    }

    /// What the signs mean, and what is left out.
    fn notes(&self, met: Met, limit: Option<usize>, out: &mut dyn Write) -> io::Result<()> {
        let mut notes = vec![met.said(self.signs)];
        let count = self.view.character_count();
        let last = self.layout.first + self.layout.widths.len();
        if limit.is_some() && last < count {
            notes.push(format!(
                "characters {} to {last} of {count} are shown; --from {} shows the next, --wide all",
                self.layout.first + 1,
                last + 1
            ));
        }
        notes.retain(|note| !note.is_empty());
        if notes.is_empty() {
            return Ok(());
        }
        writeln!(out)?;
        let columns = limit.unwrap_or(usize::MAX);
        for line in notes.iter().flat_map(|note| width::filled(note, columns)) {
            writeln!(out, "{}", self.screen.paint(Colour::Faint, &line))?;
        }
        Ok(())
    }
}
