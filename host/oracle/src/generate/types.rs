//! The ASSUMPTIONS block of a sound text.

use super::draft::{Command, Piece, end, keyword, piece, pieces, spelled_name, spelled_value};
use super::reading::name;
use super::rng::Rng;
use crate::data::Matrix;
use crate::model::CharacterOrdering;
use crate::record::order;

/// An ASSUMPTIONS block that gives a reading's types.
pub fn assumptions_block(rng: &mut Rng, reading: &Matrix) -> Vec<Command> {
    let types = &reading.ordering;
    let default = match rng.below(3) {
        0 => CharacterOrdering::Ordered,
        _ => CharacterOrdering::Unordered,
    };
    let mut commands = Vec::new();
    if default == CharacterOrdering::Ordered || rng.percent(20) {
        let mut options = pieces("OPTIONS DEFTYPE =");
        options.push(keyword(rng, order(default)));
        commands.push(options);
    }
    if types.iter().any(|&t| t != default) || rng.percent(30) {
        commands.push(typeset(rng, types, default));
    }
    if rng.percent(30) {
        commands.reverse();
    }
    commands.insert(0, vec![keyword(rng, "BEGIN"), keyword(rng, "ASSUMPTIONS")]);
    commands.push(end(rng));
    commands
}

fn typeset(rng: &mut Rng, types: &[CharacterOrdering], default: CharacterOrdering) -> Command {
    let mut command = vec![keyword(rng, "TYPESET")];
    if rng.percent(80) {
        command.push(piece("*"));
    }
    let name = name(rng);
    command.push(spelled_name(rng, &name));
    if rng.percent(30) {
        command.extend([piece("("), keyword(rng, "VECTOR"), piece(")"), piece("=")]);
        let words = types.iter().map(|&t| keyword(rng, order(t)));
        command.extend(words);
        return command;
    }
    if rng.percent(15) {
        command.extend([piece("("), keyword(rng, "STANDARD"), piece(")")]);
    }
    command.push(piece("="));
    let mut lists = Vec::new();
    for kind in [CharacterOrdering::Ordered, CharacterOrdering::Unordered] {
        let of_kind = |c: &usize| types[*c] == kind;
        let characters: Vec<usize> = (0..types.len()).filter(of_kind).collect();
        if characters.is_empty() || kind == default && rng.percent(70) {
            continue;
        }
        let mut list = vec![keyword(rng, order(kind)), piece(":")];
        list.extend(character_list(rng, &characters, types.len()));
        lists.push(list);
    }
    if lists.is_empty() {
        // All characters have the default's type.
        lists.push(vec![keyword(rng, order(default)), piece(":"), piece("ALL")]);
    }
    rng.shuffle(&mut lists);
    command.extend(lists.join(&piece(",")));
    command
}

/// A list of these characters, which rise: numbers, ranges, strides, `.` and ALL.
fn character_list(rng: &mut Rng, characters: &[usize], count: usize) -> Vec<Piece> {
    if characters.len() == count && rng.percent(40) {
        return vec![keyword(rng, "ALL")];
    }
    let mut groups: Vec<Vec<Piece>> = Vec::new();
    let mut rest = characters;
    while let Some(&first) = rest.first() {
        let (stride, length) = run(rest);
        let length = if rng.percent(20) { 1 } else { length };
        groups.push(range(rng, first, stride, length, count));
        rest = &rest[length..];
    }
    if rng.percent(20) {
        rng.shuffle(&mut groups);
    }
    groups.into_iter().flatten().collect()
}

/// The step between the first two characters, and how many go on with it.
fn run(characters: &[usize]) -> (usize, usize) {
    let [first, second, ..] = characters else {
        return (1, 1);
    };
    let stride = second - first;
    let steps = characters.windows(2).take_while(|w| w[1] - w[0] == stride);
    (stride, steps.count() + 1)
}

fn index(rng: &mut Rng, character: usize, count: usize) -> String {
    if character + 1 == count && rng.percent(40) {
        return ".".into();
    }
    let zeros = if rng.percent(5) { "00" } else { "" };
    format!("{zeros}{}", character + 1)
}

fn range(rng: &mut Rng, first: usize, stride: usize, length: usize, count: usize) -> Vec<Piece> {
    let start = index(rng, first, count);
    if length == 1 && rng.percent(90) {
        return vec![piece(start)];
    }
    let last = first + stride * (length - 1);
    // The end may lie beyond the last member, by less than a stride.
    let last = rng.between(last, (last + stride - 1).min(count - 1));
    let end = index(rng, last, count);
    let mut pieces = match rng.below(4) {
        0 => vec![
            piece(start),
            piece(rng.pick(&["-", "'-'", "\"-\""])),
            piece(end),
        ],
        1 => vec![piece(format!("{start}-")), piece(end)],
        _ => vec![piece(format!("{start}-{end}"))],
    };
    if stride > 1 || rng.percent(10) {
        pieces.push(piece("\\"));
        pieces.push(spelled_value(rng, stride));
    }
    pieces
}
