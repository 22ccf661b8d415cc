//! Sound texts: a reading is written as NEXUS in one of the many ways that give it.

use super::alphabet::{Alphabet, alphabet};
use super::draft::*;
use super::labels::label_commands;
use super::reading::{Wish, reading};
use super::rng::Rng;
use super::types::assumptions_block;
use crate::data::{Cell, Matrix};
use crate::model::CharacterOrdering;

/// How a text is laid out and what stands in it beside its reading.
#[derive(Clone, Copy)]
pub struct Layout {
    pub interleaved: Option<bool>,
    pub declared: Option<Declared>,
    pub assumptions: Option<bool>,
}

#[derive(Clone, Copy, PartialEq, Eq)]
pub enum Declared {
    No,
    TaxaBlock,
    DataBlock,
}

pub const ANY: Layout = Layout {
    interleaved: None,
    declared: None,
    assumptions: None,
};

/// A draft of a text with this reading.
pub fn draft(rng: &mut Rng, reading: &Matrix, layout: &Layout) -> Draft {
    let alphabet = alphabet(rng, reading);
    let interleaved = layout.interleaved.unwrap_or_else(|| rng.percent(25));
    let declared = layout.declared.unwrap_or_else(|| any_declaration(rng));
    let mut commands = Vec::new();
    trees(rng, &mut commands);
    if declared == Declared::TaxaBlock {
        commands.extend(taxa_block(rng, reading));
        trees(rng, &mut commands);
    }
    let block = rng.choose(&["DATA", "DATA", "CHARACTERS"]);
    commands.push(vec![keyword(rng, "BEGIN"), keyword(rng, block)]);
    commands.extend(before_matrix(
        rng,
        reading,
        &alphabet,
        interleaved,
        declared,
    ));
    commands.push(matrix(rng, reading, &alphabet, interleaved, declared));
    commands.push(end(rng));
    trees(rng, &mut commands);
    let ordered = reading.ordering.contains(&CharacterOrdering::Ordered);
    if ordered || layout.assumptions.unwrap_or_else(|| rng.percent(6)) {
        commands.extend(assumptions_block(rng, reading));
        trees(rng, &mut commands);
    }
    Draft {
        head: vec![keyword(rng, "#NEXUS")],
        commands,
        tail: Vec::new(),
        missing: alphabet.missing,
        taxa: reading.taxa.len(),
        characters: reading.character_count(),
    }
}

fn any_declaration(rng: &mut Rng) -> Declared {
    match rng.below(10) {
        0..=6 => Declared::No,
        7..=8 => Declared::TaxaBlock,
        _ => Declared::DataBlock,
    }
}

/// The commands before MATRIX, in any order.
fn before_matrix(
    rng: &mut Rng,
    reading: &Matrix,
    alphabet: &Alphabet,
    interleaved: bool,
    declared: Declared,
) -> Vec<Command> {
    let mut commands = vec![dimensions(rng, reading, declared)];
    commands.extend(alphabet.format(rng, interleaved));
    if declared == Declared::DataBlock {
        commands.push(taxlabels(rng, reading));
    }
    commands.extend(label_commands(rng, reading));
    if rng.percent(25) {
        rng.shuffle(&mut commands);
    }
    commands
}

fn trees(rng: &mut Rng, commands: &mut Vec<Command>) {
    if !rng.percent(3) {
        return;
    }
    commands.push(vec![keyword(rng, "BEGIN"), keyword(rng, "TREES")]);
    for _ in 0..rng.below(3) {
        let tree = [
            "TREE t = ( a , b )",
            "'END' x",
            "TRANSLATE 1 a",
            "UTREE * u = [&U] (1,2)",
        ];
        commands.push(pieces(rng.pick(&tree)));
    }
    commands.push(end(rng));
}

fn taxa_block(rng: &mut Rng, reading: &Matrix) -> Vec<Command> {
    let count = spelled_value(rng, reading.taxa.len());
    vec![
        vec![keyword(rng, "BEGIN"), keyword(rng, "TAXA")],
        vec![
            keyword(rng, "DIMENSIONS"),
            keyword(rng, "NTAX"),
            piece("="),
            count,
        ],
        taxlabels(rng, reading),
        end(rng),
    ]
}

fn taxlabels(rng: &mut Rng, reading: &Matrix) -> Command {
    let mut command = vec![keyword(rng, "TAXLABELS")];
    command.extend(reading.taxa.iter().map(|name| spelled_name(rng, name)));
    command
}

fn dimensions(rng: &mut Rng, reading: &Matrix, declared: Declared) -> Command {
    let mut command = vec![keyword(rng, "DIMENSIONS")];
    let (ntax, nchar) = (reading.taxa.len(), reading.character_count());
    let with_ntax = declared == Declared::No || rng.percent(50);
    let mut options = vec![vec![
        keyword(rng, "NCHAR"),
        piece("="),
        spelled_value(rng, nchar),
    ]];
    if with_ntax {
        options.push(vec![
            keyword(rng, "NTAX"),
            piece("="),
            spelled_value(rng, ntax),
        ]);
        if rng.percent(8) {
            options.push(vec![keyword(rng, "NEWTAXA")]);
        }
        options.reverse();
        if rng.percent(15) {
            rng.shuffle(&mut options);
        }
    }
    command.extend(options.into_iter().flatten());
    command
}

fn matrix(
    rng: &mut Rng,
    reading: &Matrix,
    alphabet: &Alphabet,
    interleaved: bool,
    declared: Declared,
) -> Command {
    let mut rows: Vec<usize> = (0..reading.taxa.len()).collect();
    if declared != Declared::No && rng.percent(50) {
        rng.shuffle(&mut rows);
    }
    let mut command = vec![keyword(rng, "MATRIX")];
    if interleaved {
        let renamed = declared != Declared::No;
        command.extend(pages(rng, reading, alphabet, &rows, renamed));
        return command;
    }
    for row in rows {
        command.push(row_name(rng, &reading.taxa[row], declared != Declared::No));
        command.extend(cells(rng, alphabet, &reading.rows[row]));
    }
    command
}

/// The lines of interleaved pages. Names may change in case where they are `renamed`, and on
/// all pages but the first.
fn pages(
    rng: &mut Rng,
    reading: &Matrix,
    alphabet: &Alphabet,
    rows: &[usize],
    renamed: bool,
) -> Vec<Piece> {
    let mut lines = Vec::new();
    let mut rest = 0..reading.character_count();
    while !rest.is_empty() {
        let whole = rng.percent(50);
        let width = rng.between(if whole { rest.len() } else { 1 }, rest.len());
        let page = rest.start..rest.start + width;
        for &row in rows {
            // The first row may stand on the line of the word MATRIX.
            if !lines.is_empty() || rng.percent(85) {
                lines.push(fixed("\n"));
            }
            let renamed = renamed || page.start > 0;
            lines.push(row_name(rng, &reading.taxa[row], renamed));
            lines.extend(cells(rng, alphabet, &reading.rows[row][page.clone()]));
        }
        rest.start = page.end;
    }
    lines.iter_mut().for_each(|piece| piece.fixed = true);
    lines
}

fn row_name(rng: &mut Rng, name: &str, may_change: bool) -> Piece {
    let changed = may_change && rng.percent(20);
    let name = match changed {
        true => changed_case(rng, name),
        false => name.to_string(),
    };
    Piece {
        row: true,
        ..spelled_name(rng, &name)
    }
}

/// The cells of a row, in one or more pieces.
fn cells(rng: &mut Rng, alphabet: &Alphabet, row: &[Cell]) -> Vec<Piece> {
    let joined = rng.choose(&[100, 100, 80, 0]);
    let mut pieces: Vec<Piece> = Vec::new();
    for cell in row {
        let text = alphabet.cell(rng, cell);
        match pieces.last_mut() {
            Some(last) if rng.percent(joined) => last.text.push_str(&text),
            _ => pieces.push(piece(text)),
        }
    }
    pieces
}

/// A sound text with its reading.
pub fn sound(rng: &mut Rng) -> (Matrix, Draft) {
    let reading = reading(rng, &Wish::default());
    let draft = draft(rng, &reading, &ANY);
    (reading, draft)
}
