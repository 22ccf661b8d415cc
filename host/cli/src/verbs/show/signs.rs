//! The signs of cells.

use nexus::{Cell, DataType, States, View};

use crate::terminal::{Colour, Terminal};

/// The IUPAC codes by their bases: A counts 1, C 2, G 4 and T 8.
const CODES: &[u8; 16] = b".ACMGRSVTWYHKDBN";

/// The signs for what is missing and for a gap, which are no symbols of states, and whether sets of
/// bases have codes.
#[derive(Clone, Copy, Debug, Eq, PartialEq)]
pub struct Signs {
    missing: char,
    gap: char,
    coded: bool,
}

impl Signs {
    /// `?` and `-`, and others where these are symbols of the record.
    pub fn of(view: View<'_>) -> Self {
        let symbols = view.symbols().as_str();
        let free = |signs: &str, taken: Option<char>| {
            let free = |sign: &char| !symbols.contains(*sign) && taken != Some(*sign);
            signs.chars().find(free)
        };
        // The last of each is no symbol of any record.
        let missing = free("?.·", None).unwrap_or('·');
        let gap = free("-.×", Some(missing)).unwrap_or('×');
        Self {
            missing,
            gap,
            coded: view.data_type() == DataType::Dna,
        }
    }

    /// The code of a set of bases: it stands for two of them at least.
    fn code(self, states: &States<'_>) -> Option<char> {
        if !self.coded || states.len() < 2 {
            return None;
        }
        let bases: usize = states.clone().map(|state| 1 << state.number()).sum();
        CODES.get(bases).copied().map(char::from)
    }

    /// How many columns a cell takes.
    pub fn width(self, cell: &Cell<'_>) -> usize {
        match cell {
            Cell::State(_) | Cell::Missing | Cell::Gap => 1,
            Cell::Uncertain(states) if self.code(states).is_some() => 1,
            Cell::Uncertain(states) | Cell::Polymorphic(states) => states.len() + 2,
        }
    }

    /// The cell as it is shown.
    pub fn shown(self, cell: &Cell<'_>, screen: &Terminal) -> String {
        let symbols = |states: &States<'_>| -> String {
            states.clone().map(|state| state.symbol()).collect()
        };
        let (colour, text) = match cell {
            Cell::State(state) => return state.symbol().to_string(),
            Cell::Missing => (Colour::Faint, self.missing.to_string()),
            Cell::Gap => (Colour::Faint, self.gap.to_string()),
            Cell::Polymorphic(states) => (Colour::Set, format!("({})", symbols(states))),
            Cell::Uncertain(states) => match self.code(states) {
                Some(code) => (Colour::Set, code.to_string()),
                None => (Colour::Set, format!("{{{}}}", symbols(states))),
            },
        };
        screen.paint(colour, &text)
    }
}

/// Which kinds of cells were shown, besides states.
#[derive(Clone, Copy, Debug, Default)]
pub struct Met {
    missing: bool,
    gap: bool,
    coded: bool,
    uncertain: bool,
    polymorphic: bool,
}

impl Met {
    /// Notes the kind of a cell.
    pub fn note(&mut self, cell: &Cell<'_>, signs: Signs) {
        match cell {
            Cell::State(_) => {}
            Cell::Missing => self.missing = true,
            Cell::Gap => self.gap = true,
            Cell::Uncertain(states) if signs.code(states).is_some() => self.coded = true,
            Cell::Uncertain(_) => self.uncertain = true,
            Cell::Polymorphic(_) => self.polymorphic = true,
        }
    }

    /// What their signs mean; empty where there were none.
    pub fn said(self, signs: Signs) -> String {
        let kinds = [
            (self.missing, format!("{} missing", signs.missing)),
            (self.gap, format!("{} gap", signs.gap)),
            (self.coded, "IUPAC codes: one of several".to_string()),
            (self.uncertain, "{} one of these".to_string()),
            (self.polymorphic, "() all of these".to_string()),
        ];
        let met = kinds.into_iter().filter(|(met, _)| *met);
        let said: Vec<String> = met.map(|(_, said)| said).collect();
        said.join(", ")
    }
}
