//! Damaged texts, and soups of fragments.

use super::draft::{Command, Draft, piece};
use super::rng::Rng;

/// Fragments that mean something somewhere.
const FRAGMENTS: &[&str] = &[
    "#NEXUS",
    "BEGIN",
    "DATA",
    "CHARACTERS",
    "TAXA",
    "ASSUMPTIONS",
    "TREES",
    "END",
    "ENDBLOCK",
    ";",
    ";",
    ";",
    "DIMENSIONS",
    "NTAX",
    "NCHAR",
    "NEWTAXA",
    "=",
    "=",
    "1",
    "2",
    "3",
    "0",
    "FORMAT",
    "DATATYPE",
    "STANDARD",
    "DNA",
    "MISSING",
    "GAP",
    "SYMBOLS",
    "\"01\"",
    "\"012\"",
    "\"aA\"",
    "RESPECTCASE",
    "LABELS",
    "NOTOKENS",
    "INTERLEAVE",
    "YES",
    "NO",
    "TAXLABELS",
    "CHARLABELS",
    "STATELABELS",
    "CHARSTATELABELS",
    "MATRIX",
    "a",
    "b",
    "'a b'",
    "a_b",
    "''",
    "' '",
    "_",
    "'",
    "\"",
    "[",
    "]",
    "[x]",
    "{01}",
    "(01)",
    "{",
    "}",
    "(",
    ")",
    "01",
    "?",
    "-",
    "+",
    ",",
    "/",
    "\\",
    ":",
    "*",
    "<",
    "^",
    "`",
    "~",
    "OPTIONS",
    "DEFTYPE",
    "ORD",
    "UNORD",
    "TYPESET",
    "VECTOR",
    "ALL",
    ".",
    "1-2",
    "1-.",
    "\n",
    "\r\n",
    "\r",
    "\t",
    "\u{feff}",
    "\u{a0}",
    "é",
    "漢",
    "'+2'",
    "\"2\"",
    "18446744073709551615",
    "18446744073709551616",
    "007",
    "ACGT",
    "NRY",
    "'x'",
];

fn fragment(rng: &mut Rng) -> &'static str {
    rng.pick(FRAGMENTS)
}

/// A draft with some of its pieces or commands dropped, doubled, moved or replaced.
pub fn damage_draft(rng: &mut Rng, draft: &mut Draft) {
    for _ in 0..rng.choose(&[1, 1, 1, 2, 3]) {
        if draft.commands.is_empty() {
            return;
        }
        if rng.percent(15) {
            damage_commands(rng, draft);
        } else {
            let at = rng.below(draft.commands.len());
            damage_command(rng, &mut draft.commands[at]);
        }
    }
}

fn damage_commands(rng: &mut Rng, draft: &mut Draft) {
    let commands = &mut draft.commands;
    let (at, other) = (rng.below(commands.len()), rng.below(commands.len()));
    match rng.below(4) {
        0 if commands.len() > 1 => {
            commands.remove(at);
        }
        1 => commands.insert(other, commands[at].clone()),
        2 => commands.swap(at, other),
        _ => commands.insert(at, vec![piece(fragment(rng)), piece(fragment(rng))]),
    }
}

fn damage_command(rng: &mut Rng, command: &mut Command) {
    if command.is_empty() {
        return;
    }
    let (at, other) = (rng.below(command.len()), rng.below(command.len()));
    match rng.below(6) {
        0 => {
            command.remove(at);
        }
        1 => command.insert(at, command[at].clone()),
        2 => command.swap(at, other),
        3 => command.insert(at, piece(fragment(rng))),
        4 => command[at].text = command[other].text.clone(),
        _ => command[at].text = fragment(rng).into(),
    }
}

/// The text's bytes with a few deleted, inserted, swapped or cut off.
pub fn damage_bytes(rng: &mut Rng, text: String) -> Vec<u8> {
    let mut bytes = text.into_bytes();
    for _ in 0..rng.choose(&[1, 1, 2, 3]) {
        let (at, other) = (rng.below(bytes.len() + 1), rng.below(bytes.len() + 1));
        let at = at.min(bytes.len());
        match rng.below(20) {
            0..=4 => {
                let end = (at + rng.between(1, 3)).min(bytes.len());
                bytes.drain(at..end);
            }
            5..=9 => insert(&mut bytes, at, fragment(rng).as_bytes()),
            10..=12 => {
                let mark = rng.choose(b";=,'\"[](){}/\\:*+-_?01 \n\rxA.");
                insert(&mut bytes, at, &[mark]);
            }
            13..=15 if at < bytes.len() && other < bytes.len() => bytes.swap(at, other),
            16 => bytes.truncate(at),
            17 => {
                let end = (at + rng.between(1, 12)).min(bytes.len());
                let copy = bytes[at..end].to_vec();
                insert(&mut bytes, end, &copy);
            }
            18 if rng.percent(60) => {
                let wrong: &[&[u8]] = &[
                    b"\xff",
                    b"\x80",
                    b"\xc3",
                    b"\xe2\x82",
                    b"\xed\xa0\x80",
                    b"\xc0\x80",
                    b"\xf4\x90\x80\x80",
                ];
                insert(&mut bytes, at, rng.pick(wrong));
            }
            _ => {
                let mark = rng.choose(b"; ='\"[]0aZ");
                if at < bytes.len() {
                    bytes[at] = mark;
                }
            }
        }
    }
    bytes
}

fn insert(bytes: &mut Vec<u8>, at: usize, what: &[u8]) {
    bytes.splice(at..at, what.iter().copied());
}

/// Fragments side by side, most of them after the beginnings of a text.
pub fn soup(rng: &mut Rng) -> Vec<u8> {
    let starts = [
        "",
        "#NEXUS ",
        "#NEXUS BEGIN DATA;",
        "#NEXUS BEGIN TAXA; DIMENSIONS NTAX=2;",
        "#NEXUS BEGIN DATA; DIMENSIONS NTAX=1 NCHAR=2; FORMAT ",
        "#NEXUS BEGIN DATA; DIMENSIONS NTAX=1 NCHAR=2; MATRIX ",
        "#NEXUS BEGIN DATA; DIMENSIONS NTAX=1 NCHAR=2; MATRIX a 01; END; BEGIN ASSUMPTIONS; TYPESET * t = ORD:",
        "#NEXUS BEGIN DATA; DIMENSIONS NTAX=1 NCHAR=2; MATRIX a 01; END; BEGIN ASSUMPTIONS; ",
    ];
    let mut out = rng.pick(&starts).to_string();
    for _ in 0..rng.between(1, 16) {
        out.push_str(fragment(rng));
        if rng.percent(60) {
            out.push(' ');
        }
    }
    if rng.percent(30) {
        out.push_str("; END;");
    }
    out.into_bytes()
}
