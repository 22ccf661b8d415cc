//! Texts with one fault each, so that every place in the sources that makes an error is reached.

mod blocks;
mod labels;
mod rows;
mod types;

use super::draft::{Draft, Piece, pieces};
use super::reading::{Wish, reading};
use super::rng::Rng;
use super::text::{ANY, Declared, Layout, draft};
use crate::data::DataType;

/// Makes a text with a fault.
type Fault = fn(&mut Rng) -> Draft;

const NOT_NAMES: &[&str] = &[
    "''", "' '", "\"a\"", "\"\"", "=", ",", "(", "'\u{a0}'", "'\n'", "*", "+", "]", ":", "/", "\\",
    "<", "'\t '",
];

const LAYOUT: Layout = Layout {
    declared: Some(Declared::No),
    interleaved: Some(false),
    assumptions: Some(false),
};

const PLAIN: Wish = Wish {
    data_type: None,
    taxa: 1,
    characters: 1,
    labels: Some(false),
    ordered: Some(false),
    plain_cells: true,
};

const STANDARD: Wish = Wish {
    data_type: Some(DataType::Standard),
    ..PLAIN
};

const DNA: Wish = Wish {
    data_type: Some(DataType::Dna),
    ..PLAIN
};

fn make(rng: &mut Rng, wish: &Wish, layout: &Layout) -> Draft {
    let reading = reading(rng, wish);
    draft(rng, &reading, layout)
}

/// A text of any kind.
fn any(rng: &mut Rng) -> Draft {
    make(rng, &Wish::default(), &ANY)
}

/// A text with a DATA block alone, and sequential rows of plain cells.
pub fn plain(rng: &mut Rng) -> Draft {
    make(rng, &PLAIN, &LAYOUT)
}

fn sized(rng: &mut Rng, taxa: usize, characters: usize) -> Draft {
    let wish = Wish {
        taxa,
        characters,
        ..PLAIN
    };
    make(rng, &wish, &LAYOUT)
}

fn declared(rng: &mut Rng, declared: Declared) -> Draft {
    let layout = Layout {
        declared: Some(declared),
        ..LAYOUT
    };
    make(rng, &PLAIN, &layout)
}

fn interleaved(rng: &mut Rng, taxa: usize) -> Draft {
    let wish = Wish { taxa, ..PLAIN };
    let layout = Layout {
        interleaved: Some(true),
        ..LAYOUT
    };
    make(rng, &wish, &layout)
}

/// The value of a DIMENSIONS option replaced.
fn with_dimension(mut draft: Draft, option: &str, value: &str) -> Draft {
    let command = draft.command("DIMENSIONS");
    let is_option = |piece: &Piece| piece.text.eq_ignore_ascii_case(option);
    let at = command.iter().position(is_option).expect("the option");
    command[at + 2].text = value.into();
    draft
}

/// A text with sequential rows and this list in a TYPESET. It has three characters or more.
fn with_list(rng: &mut Rng, lists: &[&str]) -> Draft {
    let list = rng.pick(lists);
    let typeset = format!("TYPESET * t = {list}");
    standard(rng, 3).with_assumptions(&[&typeset])
}

pub fn standard(rng: &mut Rng, characters: usize) -> Draft {
    let wish = Wish {
        characters,
        ..STANDARD
    };
    make(rng, &wish, &LAYOUT)
}

fn with_typeset(rng: &mut Rng, typesets: &[&str]) -> Draft {
    let typeset = rng.pick(typesets);
    standard(rng, 1).with_assumptions(&[typeset])
}

fn with_labels(rng: &mut Rng, commands: &[&str]) -> Draft {
    let command = rng.pick(commands);
    standard(rng, 2).before_matrix(pieces(command))
}

/// The call sites, each with a fault that reaches it. `lexer.rs:39` has none of its own: it is
/// reached through the calls of `label()`.
const FAULTS: &[&[(&str, Fault)]] = &[blocks::FAULTS, labels::FAULTS, rows::FAULTS, types::FAULTS];

/// The call sites that have a fault.
pub fn sites() -> Vec<&'static str> {
    FAULTS.concat().iter().map(|(site, _)| *site).collect()
}

/// A text with the fault of the call site that has this number in `sites`.
pub fn faulty_at(rng: &mut Rng, site: usize) -> Draft {
    let mut faults = FAULTS.iter().flat_map(|faults| faults.iter());
    let (_, make) = faults.nth(site).expect("a site's number");
    make(rng)
}

/// A text with the fault of one of the call sites.
pub fn faulty(rng: &mut Rng) -> Draft {
    let count = FAULTS.iter().map(|faults| faults.len()).sum();
    let site = rng.below(count);
    faulty_at(rng, site)
}
