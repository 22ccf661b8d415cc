//! Faults of rows and cells (matrix.rs).

use super::{
    DNA, Fault, LAYOUT, NOT_NAMES, STANDARD, interleaved, make, plain, sized, with_dimension,
};
use crate::generate::draft::{fixed, piece, pieces};
use crate::generate::text::Layout;

#[rustfmt::skip]
pub const FAULTS: &[(&str, Fault)] = &[
    ("matrix.rs:37", |rng| {
        let mut draft = plain(rng);
        draft.command("MATRIX").push(piece(rng.pick(&["zz 0", "0", "'zz'", "=", "\"0\"", ",", "{0}", "''"])));
        draft
    }),
    ("matrix.rs:40", |rng| {
        let mut draft = plain(rng);
        let rows = draft.rows();
        let at = rows[rng.below(rows.len())].0;
        draft.command("MATRIX")[at].text = rng.pick(NOT_NAMES).into();
        draft
    }),
    ("matrix.rs:42", |rng| {
        let mut draft = sized(rng, 2, 1);
        let rows = draft.rows();
        let at = rows[rng.between(1, rows.len() - 1)].0;
        let matrix = draft.command("MATRIX");
        matrix[at].text = matrix[1].text.clone();
        draft
    }),
    ("matrix.rs:48", |rng| {
        let mut draft = plain(rng);
        if rng.percent(60) {
            draft.command("MATRIX").pop();
            return draft;
        }
        let count = rng.pick(&["99", "18446744073709551615"]);
        *draft.command("DIMENSIONS") = pieces(&format!("DIMENSIONS NTAX = 1 NCHAR = {count}"));
        let end = draft.rows()[0].1;
        draft.command("MATRIX").truncate(end);
        draft
    }),
    ("matrix.rs:60", |rng| {
        let mut draft = plain(rng);
        let rows = draft.rows();
        let (_, end) = rows[rng.below(rows.len())];
        let word = &mut draft.command("MATRIX")[end - 1].text;
        let last = word.chars().last().expect("a cell");
        word.extend(vec![last; rng.between(1, 3)]);
        draft
    }),
    ("matrix.rs:67", |rng| {
        let mut draft = plain(rng);
        if rng.percent(30) {
            let count = (draft.taxa + rng.between(1, 3)).to_string();
            let count = if rng.percent(20) { "18446744073709551615" } else { &count };
            return with_dimension(draft, "NTAX", count);
        }
        let rows = draft.rows();
        let start = rows[rng.below(rows.len())].0;
        draft.command("MATRIX").truncate(start);
        draft
    }),
    ("matrix.rs:89", |rng| {
        let mut draft = interleaved(rng, 2);
        if rng.percent(50) {
            let start = draft.rows().last().expect("a row").0;
            draft.command("MATRIX").truncate(start - 1);
            return draft;
        }
        let line = [fixed("\n"), fixed(rng.pick(&["a", "''", "="])), fixed("0")];
        draft.command("MATRIX").extend(line);
        draft
    }),
    ("matrix.rs:95", |rng| {
        let mut draft = interleaved(rng, 1);
        let rows = draft.rows();
        let at = rows[rng.below(rows.len())].0;
        draft.command("MATRIX")[at].text = rng.pick(NOT_NAMES).into();
        draft
    }),
    ("matrix.rs:98", |rng| {
        let mut draft = interleaved(rng, 2);
        let taxa = draft.taxa;
        let rows = draft.rows();
        let at = rows[rng.between(1, taxa - 1)].0;
        let matrix = draft.command("MATRIX");
        matrix[at].text = matrix[rows[0].0].text.clone();
        draft
    }),
    ("matrix.rs:103", |rng| {
        let mut draft = interleaved(rng, 1);
        let taxa = draft.taxa;
        let wrong = rng.pick(&["zz", "'z\"z'", "q_q", "'\\'", "é"]);
        for _ in 0..taxa {
            let line = [fixed("\n"), fixed(wrong), fixed("0")];
            draft.command("MATRIX").extend(line);
        }
        draft
    }),
    ("matrix.rs:115", |rng| {
        let mut draft = interleaved(rng, 1);
        let rows = draft.rows();
        let (start, end) = rows[rng.below(rows.len())];
        draft.command("MATRIX").drain(start + 1..end);
        draft
    }),
    ("matrix.rs:118", |rng| {
        let mut draft = interleaved(rng, 2);
        let rows = draft.rows();
        let (_, end) = rows[rng.between(1, rows.len() - 1)];
        let matrix = draft.command("MATRIX");
        let cells = fixed(&matrix[end - 1].text);
        matrix.insert(end, cells);
        draft
    }),
    ("matrix.rs:123", |rng| {
        let mut draft = interleaved(rng, 1);
        let matrix = draft.command("MATRIX");
        let again = matrix[1..].to_vec();
        matrix.push(fixed("\n"));
        matrix.extend(again);
        draft
    }),
    ("matrix.rs:128", |rng| {
        let mut draft = interleaved(rng, 1);
        if rng.percent(30) {
            draft.command("MATRIX").truncate(1);
            return draft;
        }
        let count = draft.characters + rng.choose(&[1, 2, 1000]);
        with_dimension(draft, "NCHAR", &count.to_string())
    }),
    ("matrix.rs:142", |rng| {
        let mut draft = if rng.percent(50) { plain(rng) } else { interleaved(rng, 1) };
        let symbol = draft.command("MATRIX").last().expect("a cell").text.chars().last().expect("a symbol");
        let open = rng.pick(&["{", "("]);
        let matrix = draft.command("MATRIX");
        let last = matrix.len() - 1;
        matrix[last] = fixed(&format!("{open}{symbol}"));
        draft
    }),
    ("matrix.rs:149", |rng| {
        let draft = if rng.percent(50) { plain(rng) } else { interleaved(rng, 1) };
        let missing = draft.missing;
        let set = rng.choose(&["{", "("]);
        let close = if set == "{" { "}" } else { ")" };
        draft.with_cells(rng, &format!("{set}{missing}{close}"))
    }),
    ("matrix.rs:155", |rng| {
        let draft = if rng.percent(50) { plain(rng) } else { interleaved(rng, 1) };
        let set = rng.pick(&["{}", "()", "{ }", "([x])", "{[]}"]);
        draft.with_cells(rng, set)
    }),
    ("matrix.rs:175", |rng| {
        let draft = if rng.percent(50) { plain(rng) } else { interleaved(rng, 1) };
        let cells = rng.pick(&["'0'", "\"0\"", ",", "]", ")", "}", "=", "*", "{(", "({", "{,", "{'0'}", "(}", "<", "^", ":", "\\", "`"]);
        draft.with_cells(rng, cells)
    }),
    ("matrix.rs:187", |rng| {
        let interleaved = rng.percent(30);
        let layout = Layout { interleaved: Some(interleaved), ..LAYOUT };
        let cells = rng.pick(&["X", "0", "é", "U", "AX", "{AX}", "(é)", "A~", "|", "%", "\u{200b}", "o", "\u{7f}", "{A0"]);
        make(rng, &DNA, &layout).with_cells(rng, cells)
    }),
    ("matrix.rs:194", |rng| {
        let interleaved = rng.percent(30);
        let layout = Layout { interleaved: Some(interleaved), ..LAYOUT };
        let cells = rng.pick(&["~", "é", "\u{feff}", "{~}", "(é", "~~", "\u{0}", "\u{7f}", "漢", "+~", "𝄞"]);
        make(rng, &STANDARD, &layout).with_cells(rng, cells)
    }),
];
