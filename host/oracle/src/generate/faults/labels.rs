//! Faults of label commands (mod.rs).

use super::{Fault, NOT_NAMES, standard, with_labels};
use crate::generate::draft::{keyword, piece, pieces};

#[rustfmt::skip]
pub const FAULTS: &[(&str, Fault)] = &[
    ("mod.rs:483", |rng| {
        let mut draft = standard(rng, 2);
        let count = rng.choose(&[0, 1, draft.characters + 1, draft.characters - 1]);
        let mut labels = vec![keyword(rng, "CHARLABELS")];
        labels.extend((0..count).map(|i| piece(["l", "''", "'x y'"][i % 3])));
        draft = draft.before_matrix(labels);
        draft
    }),
    ("mod.rs:487", |rng| {
        let draft = standard(rng, 2);
        let mut labels = vec![keyword(rng, "CHARLABELS")];
        labels.extend((0..draft.characters).map(|_| piece("l")));
        let entry = rng.pick(&["CHARSTATELABELS 1 a", "CHARSTATELABELS 2 b / c", "CHARSTATELABELS 1 / x , 2 '='", "CHARSTATELABELS 2 q ,"]);
        draft.before_matrix(pieces(entry)).before_matrix(labels)
    }),
    ("mod.rs:489", |rng| {
        let draft = standard(rng, 1);
        let mut labels = vec![keyword(rng, "CHARLABELS")];
        labels.extend((0..draft.characters).map(|_| piece("l")));
        let at = rng.between(1, draft.characters);
        labels[at] = piece(rng.pick(NOT_NAMES));
        draft.before_matrix(labels)
    }),
    ("mod.rs:503", |rng| {
        with_labels(rng, &[
            "STATELABELS", "CHARSTATELABELS", "STATELABELS ,", "CHARSTATELABELS 1 a , , 2 b", "STATELABELS 1 a , ,", "CHARSTATELABELS , 1 a",
        ])
    }),
    ("mod.rs:509", |rng| {
        with_labels(rng, &[
            "STATELABELS 0 a", "CHARSTATELABELS x", "STATELABELS 99 a", "CHARSTATELABELS 1 a , 77 / b", "STATELABELS '' a", "CHARSTATELABELS / a",
            "STATELABELS 1 a , -1 b", "CHARSTATELABELS + 1 a", "STATELABELS '1 ' a", "CHARSTATELABELS 18446744073709551616", "STATELABELS 1. b",
        ])
    }),
    ("mod.rs:515", |rng| {
        with_labels(rng, &[
            "CHARSTATELABELS 1 a , 1 b", "CHARSTATELABELS 2 a / x , '2' '' ", "CHARSTATELABELS 1 a , 2 b , 01 c / d", "CHARSTATELABELS 1 a , 1 =",
        ])
    }),
    ("mod.rs:517", |rng| {
        let name = rng.choose(&["''", "' '", "\"a\"", "=", "(", "'\u{a0}'", "*", "+", "]", ":", "\\"]);
        let command = format!("CHARSTATELABELS 1 {name} / a");
        standard(rng, 1).before_matrix(match name {
            "' '" => [pieces("CHARSTATELABELS 1"), vec![piece(name)]].concat(),
            _ => pieces(&command),
        })
    }),
    ("mod.rs:524", |rng| with_labels(rng, &["CHARSTATELABELS 1 a b", "CHARSTATELABELS 2 x '/' y", "CHARSTATELABELS 1 , 2 a = c", "CHARSTATELABELS 1 a : / b"])),
    ("mod.rs:529", |rng| {
        with_labels(rng, &[
            "STATELABELS 1 a , 1 b", "CHARSTATELABELS 1 / a , 1 / b", "CHARSTATELABELS 2 / , 2 x / '' ", "STATELABELS 2 , 2", "CHARSTATELABELS 1 x / a , 1 /",
        ])
    }),
    ("mod.rs:533", |rng| {
        let head = rng.pick(&["STATELABELS 1", "CHARSTATELABELS 1 /", "CHARSTATELABELS 2 a / b", "STATELABELS 2 x", "STATELABELS 1 /"]);
        let name = rng.choose(&["''", "' '", "\"a\"", "=", "(", "'\u{a0}'", "*", "+", "]", ":", "/"]);
        standard(rng, 2).before_matrix([pieces(head), vec![piece(name)]].concat())
    }),
    ("mod.rs:536", |rng| {
        let labels: Vec<&str> = vec!["s"; 76];
        let count = rng.choose(&[3, 5, 12, 74]);
        let head = rng.pick(&["STATELABELS 1", "CHARSTATELABELS 2 a /"]);
        let command = format!("{head} {}", labels[..count].join(" "));
        standard(rng, 2).before_matrix(pieces(&command))
    }),
];
