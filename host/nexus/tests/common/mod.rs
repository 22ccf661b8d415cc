//! A view held against a reading of the oracle, part by part.
#![allow(dead_code)]

use nexus::{
    Cell, Cells, Character, CharacterNumber, DataType, Ordering, State, States, Taxon, TaxonNumber,
    Text, View,
};
use oracle::data::{self, Matrix};
use oracle::model::CharacterOrdering;
use oracle::record::escape;

/// Every part of the view is that of the reading.
#[track_caller]
pub fn hold(view: View<'_>, reading: &Matrix) {
    let dna = reading.data_type() == data::DataType::Dna;
    let data_type = if dna {
        DataType::Dna
    } else {
        DataType::Standard
    };
    assert_eq!(view.data_type(), data_type);
    let symbols: String = reading.symbols().iter().collect();
    assert_eq!(view.symbols().as_str(), symbols);
    assert_eq!(view.symbols().to_string(), symbols);
    assert_eq!(view.symbols().count(), symbols.len());
    hold_states(
        view.symbols().states(),
        &(0..symbols.len()).collect::<Vec<_>>(),
        reading,
    );
    assert_eq!(view.taxon_count(), reading.taxa().len());
    assert_eq!(view.character_count(), reading.character_count());
    hold_taxa(view, reading);
    hold_characters(view, reading);
}

fn hold_taxa(view: View<'_>, reading: &Matrix) {
    let mut taxa = view.taxa();
    for (index, name) in reading.taxa().iter().enumerate() {
        assert_eq!(taxa.len(), reading.taxa().len() - index);
        let taxon = taxa.next().expect("a taxon");
        hold_text(taxon.name(), name);
        hold_taxon(taxon, index, reading);
        let number = TaxonNumber::new(index + 1).expect("a number");
        assert_eq!(taxon.number(), number);
        assert_eq!(view.taxon(number), Some(taxon));
        // A lookup walks over the whole record.
        if view.as_bytes().len() < 100_000 || index == 0 {
            assert_eq!(view.find(name.as_bytes()), Ok(taxon.cells()));
            let other = name.to_ascii_uppercase();
            assert_eq!(view.find(other.as_bytes()), Ok(taxon.cells()));
        }
    }
    assert_eq!((taxa.len(), taxa.next()), (0, None));
    assert_eq!(taxa.next(), None);
    let beyond = TaxonNumber::new(reading.taxa().len() + 1).expect("a number");
    assert_eq!(view.taxon(beyond), None);
}

fn hold_taxon(taxon: Taxon<'_>, index: usize, reading: &Matrix) {
    let row = &reading.rows()[index];
    let mut cells: Cells = taxon.cells();
    for (index, right) in row.iter().enumerate() {
        assert_eq!(cells.len(), row.len() - index);
        let cell = cells.next().expect("a cell");
        hold_cell(&cell, right, reading);
        // Walking to each cell takes as many steps as there are before it.
        if row.len() < 100 {
            let number = CharacterNumber::new(index + 1).expect("a number");
            assert_eq!(taxon.cell(number), Some(cell));
        }
    }
    assert_eq!((cells.len(), cells.next()), (0, None));
    assert_eq!(cells.as_bytes(), b"");
    let beyond = CharacterNumber::new(row.len() + 1).expect("a number");
    assert_eq!(taxon.cell(beyond), None);
}

fn hold_cell(cell: &Cell<'_>, right: &data::Cell, reading: &Matrix) {
    match (cell, right) {
        (Cell::State(state), data::Cell::State(right)) => {
            hold_states([*state].into_iter(), &[*right], reading);
        }
        (Cell::Uncertain(states), data::Cell::Uncertain(right))
        | (Cell::Polymorphic(states), data::Cell::Polymorphic(right)) => {
            hold_states(States::clone(states), right, reading);
        }
        (Cell::Missing, data::Cell::Missing) | (Cell::Gap, data::Cell::Gap) => {}
        _ => panic!("{cell:?} is not {right:?}"),
    }
}

fn hold_states(
    mut states: impl ExactSizeIterator<Item = State>,
    right: &[usize],
    reading: &Matrix,
) {
    for (index, number) in right.iter().enumerate() {
        assert_eq!(states.len(), right.len() - index);
        let state = states.next().expect("a state");
        assert_eq!(state.number(), *number);
        assert_eq!(state.symbol(), reading.symbols()[*number]);
    }
    assert_eq!((states.len(), states.next()), (0, None));
}

fn hold_characters(view: View<'_>, reading: &Matrix) {
    let count = reading.character_count();
    let mut characters = view.characters();
    for index in 0..count {
        assert_eq!(characters.len(), count - index);
        let character = characters.next().expect("a character");
        hold_character(character, index, reading);
        if count < 100 {
            assert_eq!(view.character(character.number()), Some(character));
        }
    }
    assert_eq!((characters.len(), characters.next()), (0, None));
    let beyond = CharacterNumber::new(count + 1).expect("a number");
    assert_eq!(view.character(beyond), None);
}

fn hold_character(character: Character<'_>, index: usize, reading: &Matrix) {
    assert_eq!(character.number().get(), index + 1);
    match (character.label(), &reading.character_labels()[index]) {
        (Some(label), Some(right)) => hold_text(label, right),
        (None, None) => {}
        (label, right) => panic!("{label:?} is not {right:?}"),
    }
    let ordered = reading.ordering()[index] == CharacterOrdering::Ordered;
    assert_eq!(character.ordering() == Ordering::Ordered, ordered);
    let right = &reading.state_labels()[index];
    let labels = character.state_labels();
    assert_eq!(labels.len(), right.len());
    assert_eq!(labels.clone().count(), right.len());
    for (label, right) in labels.zip(right) {
        hold_text(label, right);
    }
}

fn hold_text(text: Text<'_>, right: &str) {
    assert_eq!(text, right);
    assert_eq!(text.to_string(), right);
    assert_eq!(text.to_bytes(), right.as_bytes());
    assert!(text.bytes().eq(right.bytes()));
    assert_eq!(text.escaped(), escape(right).as_bytes());
    let (least, most) = text.bytes().size_hint();
    assert!(least <= right.len() && most.is_some_and(|most| most >= right.len()));
}
