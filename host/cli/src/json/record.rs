//! A record as JSON.

use std::fmt::{self, Display};

use nexus::{Cell, Character, State, Taxon, View};

use super::{Array, Quoted};

/// An object that has all of a record.
pub struct Record<'r>(pub View<'r>);

impl Display for Record<'_> {
    fn fmt(&self, f: &mut fmt::Formatter<'_>) -> fmt::Result {
        let view = self.0;
        write!(
            f,
            "{{\"datatype\":{},\"symbols\":{},\"taxa\":{},\"characters\":{}}}",
            Quoted(view.data_type().word()),
            Quoted(view.symbols().as_str()),
            Array(view.taxa().map(OneTaxon)),
            Array(view.characters().map(OneCharacter)),
        )
    }
}

#[derive(Clone)]
struct OneTaxon<'r>(Taxon<'r>);

impl Display for OneTaxon<'_> {
    fn fmt(&self, f: &mut fmt::Formatter<'_>) -> fmt::Result {
        write!(
            f,
            "{{\"number\":{},\"name\":{},\"cells\":{}}}",
            self.0.number().get(),
            Quoted(&self.0.name().to_string()),
            Cells(self.0.cells()),
        )
    }
}

/// An array of cells: a state is its number, a set an object with the numbers of its states, and
/// the others are words.
pub struct Cells<'r>(pub nexus::Cells<'r>);

impl Display for Cells<'_> {
    fn fmt(&self, f: &mut fmt::Formatter<'_>) -> fmt::Result {
        Array(self.0.clone().map(OneCell)).fmt(f)
    }
}

struct OneCell<'r>(Cell<'r>);

impl Display for OneCell<'_> {
    fn fmt(&self, f: &mut fmt::Formatter<'_>) -> fmt::Result {
        let (kind, states) = match &self.0 {
            Cell::State(state) => return state.number().fmt(f),
            Cell::Missing => return f.write_str("\"missing\""),
            Cell::Gap => return f.write_str("\"gap\""),
            Cell::Uncertain(states) => ("uncertain", states),
            Cell::Polymorphic(states) => ("polymorphic", states),
        };
        let numbers = states.clone().map(State::number);
        write!(f, "{{\"{kind}\":{}}}", Array(numbers))
    }
}

struct OneCharacter<'r>(Character<'r>);

impl Display for OneCharacter<'_> {
    fn fmt(&self, f: &mut fmt::Formatter<'_>) -> fmt::Result {
        write!(f, "{{\"number\":{},\"label\":", self.0.number().get())?;
        match self.0.label() {
            Some(label) => Quoted(&label.to_string()).fmt(f)?,
            None => f.write_str("null")?,
        }
        let labels: Vec<String> = self.0.state_labels().map(|l| l.to_string()).collect();
        let labels = labels.iter().map(|label| Quoted(label));
        write!(
            f,
            ",\"order\":{},\"states\":{}}}",
            Quoted(self.0.ordering().word()),
            Array(labels),
        )
    }
}
