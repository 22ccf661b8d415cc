//! Faults of ASSUMPTIONS blocks (assumptions.rs).

use super::{Fault, standard, with_list, with_typeset};
use crate::generate::draft::{piece, pieces};

#[rustfmt::skip]
pub const FAULTS: &[(&str, Fault)] = &[
    ("assumptions.rs:22", |rng| {
        with_typeset(rng, &[
            "OPTIONS", "OPTIONS DEFTYPE", "OPTIONS DEFTYPE =", "OPTIONS DEFTYPE ORD", "OPTIONS POLYTCOUNT = MIN", "OPTIONS 'DEFTYPE' = ORD",
            "OPTIONS DEFTYPE = ORD x", "OPTIONS DEFTYPE '=' ORD",
        ])
    }),
    ("assumptions.rs:30", |rng| {
        let draft = standard(rng, 1);
        match rng.below(3) {
            0 => draft.with_assumptions(&["OPTIONS DEFTYPE = ORD", "OPTIONS"]),
            1 => draft.with_assumptions(&["TYPESET t = ORD : 1", "TYPESET"]),
            _ => {
                let command = rng.pick(&["EXSET x = 1", "'TYPESET' t = ORD : 1", "\"OPTIONS\"", "=", "WTSET w = 1", "MATRIX"]);
                draft.with_assumptions(&[command])
            }
        }
    }),
    ("assumptions.rs:50", |rng| {
        with_typeset(rng, &[
            "OPTIONS DEFTYPE = X", "OPTIONS DEFTYPE = 'ORD'", "OPTIONS DEFTYPE = =", "TYPESET t = IRREV : 1", "TYPESET t = 'ORD' : 1",
            "TYPESET t = 1", "TYPESET t = ,", "TYPESET t = ORD : 1 , , UNORD : 1", "TYPESET t ( STANDARD ) = \"ORD\" : 1", "TYPESET t = : 1",
        ])
    }),
    ("assumptions.rs:65", |rng| with_typeset(rng, &["TYPESET", "TYPESET *", "typeset *"])),
    ("assumptions.rs:66", |rng| {
        let name = rng.choose(&["''", "' '", "\"a\"", "=", "(", "* *", "+", "]", ":", "* ''"]);
        let typeset = [pieces("TYPESET"), vec![piece(name)], pieces("= ORD : 1")].concat();
        let mut draft = standard(rng, 1).with_assumptions(&["x"]);
        let at = draft.commands.len() - 2;
        draft.commands[at] = typeset;
        draft
    }),
    ("assumptions.rs:72", |rng| with_typeset(rng, &["TYPESET t (", "TYPESET * t (", "TYPESET 'a b' ("])),
    ("assumptions.rs:76", |rng| {
        with_typeset(rng, &[
            "TYPESET t ( FOO ) = ORD : 1", "TYPESET t ( VECTOR = ORD", "TYPESET t ( 'VECTOR' ) = ORD", "TYPESET t ( STANDARD", "TYPESET * t ( ) = ORD : 1",
            "TYPESET t ( VECTOR", "TYPESET t ( = ) = ORD : 1", "TYPESET t ( STANDARD x ) = ORD : 1",
        ])
    }),
    ("assumptions.rs:81", |rng| {
        with_typeset(rng, &["TYPESET t", "TYPESET t ORD : 1", "TYPESET * t ( VECTOR ) ORD", "TYPESET t '=' ORD : 1", "TYPESET t : ORD", "TYPESET t x = ORD : 1"])
    }),
    ("assumptions.rs:85", |rng| with_typeset(rng, &["TYPESET t =", "TYPESET * t ( VECTOR ) =", "TYPESET t ( STANDARD ) ="])),
    ("assumptions.rs:89", |rng| {
        let draft = standard(rng, 2);
        let count = rng.choose(&[1, draft.characters - 1, draft.characters + 1]);
        let types = vec![rng.choose(&["ORD", "UNORD", ",", "x"]); count].join(" ");
        draft.with_assumptions(&[&format!("TYPESET * t ( VECTOR ) = {types}")])
    }),
    ("assumptions.rs:100", |rng| with_list(rng, &["ORD : 1 ,", "ORD : 1 , UNORD : 2 - 3 ,", "UNORD : ALL ,", "ORD : . ,"])),
    ("assumptions.rs:103", |rng| with_list(rng, &["ORD 1", "ORD", "ORD = 1", "ORD ':' 1", "ORD : 1 , UNORD", "UNORD , ORD : 1", "ORD : 2 , UNORD 1"])),
    ("assumptions.rs:112", |rng| {
        with_list(rng, &["ORD : 1 1", "ORD : 1 , UNORD : 1", "ORD : ALL 2", "ORD : 1-3 , UNORD : 2", "ORD : 1-3 \\ 2 3", "UNORD : . 3 ALL", "ORD : 2 , ORD : ALL"])
    }),
    ("assumptions.rs:128", |rng| with_list(rng, &["ORD :", "ORD : , UNORD : 1", "ORD : 1 , UNORD :", "UNORD : ,"])),
    ("assumptions.rs:149", |rng| with_list(rng, &["ORD : '1'", "ORD : \"2\"", "ORD : 1-'3'", "ORD : 1 '2-3'", "ORD : 'ALL'", "ORD : '.'", "ORD : 1 '-' '2'", "ORD : '-'"])),
    ("assumptions.rs:159", |rng| {
        with_list(rng, &[
            "ORD : 0", "ORD : 99", "ORD : x", "ORD : 1-99", "ORD : -2", "ORD : 1--3", "ORD : 1-2-3", "ORD : ALL-3", "ORD : 1-ALL", "ORD : ..", "ORD : 1.",
            "ORD : + 1", "ORD : 1 \\ 2 \\ 2", "ORD : 18446744073709551616", "ORD : 1 = 2", "ORD : 1-2 \\ 2-3", "ORD : 1 1 x", "ORD : * 1", "ORD : \u{661}",
        ])
    }),
    ("assumptions.rs:174", |rng| with_list(rng, &["ORD : ALL - 3", "ORD : ALL -3", "ORD : ALL -", "ORD : all '-' 2", "UNORD : 1 ALL - ."])),
    ("assumptions.rs:178", |rng| with_list(rng, &["ORD : 1-", "ORD : 1 -", "ORD : 1 '-'", "ORD : 2 1-", "ORD : .-", "ORD : 1- , UNORD : 2", "ORD : 1 \"-\""])),
    ("assumptions.rs:183", |rng| with_list(rng, &["ORD : 3-1", "ORD : .-1", "ORD : 2 - 1", "ORD : 3-2 \\ 0", "ORD : 1 3-2 x"])),
    ("assumptions.rs:189", |rng| with_list(rng, &["ORD : 1-3 \\", "ORD : 1 \\", "ORD : ALL \\", "ORD : 1-2 \\ , UNORD : 3", "ORD : . \\"])),
    ("assumptions.rs:194", |rng| {
        with_list(rng, &[
            "ORD : 1-3 \\ 0", "ORD : ALL \\ x", "ORD : 1 \\ '-1'", "ORD : 1-3 \\ .", "ORD : 1-3 \\ ''", "ORD : 1 \\ \\ 2", "ORD : 1-3 \\ + 2",
            "ORD : 1-3 \\ -2", "ORD : 1-2 \\ 18446744073709551616", "ORD : 1-3 \\ \"+\"",
        ])
    }),
];
