//! What the reader cannot bear. Two texts of legal length can make it need more memory or time
//! than a machine has: a character list that it writes out index by index, and many declared
//! taxa, each of which it searches from the first row on. Such texts are not given to it.

use crate::lexer::{Kind, Token, lex};
use crate::tokens::commands;

/// The most indices that a written-out character list may hold.
const INDEX_LIMIT: u64 = 1 << 26;

/// The most comparisons that the search for declared taxa may take.
const COMPARISON_LIMIT: u64 = 1 << 33;

#[derive(Clone, Copy, Debug, Eq, PartialEq)]
pub enum Beyond {
    Memory,
    Time,
}

/// Whether the reader might need too much for this text. It never needs more than is counted
/// here; a text with a fault may need less.
pub fn beyond(text: &str) -> Option<Beyond> {
    let Ok(tokens) = lex(text) else {
        return None;
    };
    let commands = commands(&tokens);
    // A matrix has no more characters than the text has bytes.
    let characters = declared_characters(&tokens).min(text.len() as u64);
    let typesets = commands.iter().filter(|command| command[0].is("TYPESET"));
    let indices: u64 = typesets.map(|typeset| listed(typeset, characters)).sum();
    let taxa = commands.iter().filter(|command| command[0].is("TAXLABELS"));
    let taxa = taxa
        .map(|labels| labels.len() as u64 - 1)
        .max()
        .unwrap_or(0);
    if indices > INDEX_LIMIT {
        Some(Beyond::Memory)
    } else if taxa * taxa > COMPARISON_LIMIT {
        Some(Beyond::Time)
    } else {
        None
    }
}

/// The highest value of NCHAR anywhere in the text.
fn declared_characters(tokens: &[Token]) -> u64 {
    let tokens: Vec<&Token> = tokens.iter().filter(|t| t.kind != Kind::Newline).collect();
    let values = tokens
        .windows(3)
        .filter(|w| w[0].is("NCHAR") && w[1].punct('='));
    let counts = values.filter_map(|w| w[2].text.parse().ok());
    counts.max().unwrap_or(0)
}

/// The most indices that the lists of a TYPESET can hold: one for a number, all for ALL, and
/// for a dash what lies between its ends.
fn listed(typeset: &[&Token], characters: u64) -> u64 {
    let units: Vec<(&str, bool)> = typeset.iter().flat_map(|token| units(token)).collect();
    let end = |at: Option<usize>| match units.get(at?)?.0 {
        "." => Some(characters),
        text => text.parse().ok().filter(|&n: &u64| n <= characters),
    };
    let width = |(at, &(text, all)): (usize, &(&str, bool))| match text {
        _ if all => characters,
        "-" => match (end(at.checked_sub(1)), end(Some(at + 1))) {
            (Some(first), Some(last)) => (last + 1).saturating_sub(first),
            _ => 0,
        },
        _ => 1,
    };
    units.iter().enumerate().map(width).sum()
}

/// The parts of a token, a word cut at each dash, and whether the token is ALL.
fn units(token: &Token) -> Vec<(&str, bool)> {
    if token.kind != Kind::Word {
        return vec![(token.text.as_str(), false)];
    }
    let mut units = Vec::new();
    for (i, part) in token.text.split('-').enumerate() {
        if i > 0 {
            units.push(("-", false));
        }
        if !part.is_empty() {
            units.push((part, token.is("ALL")));
        }
    }
    units
}
