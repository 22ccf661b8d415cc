//! Texts in which one command is a random sequence of parts that fit it. They show in which
//! order the reader judges what is wrong.

use super::draft::{Draft, pieces};
use super::faults::{plain, standard};
use super::rng::Rng;

/// The head of a command and parts that may follow it.
type Mix = (&'static str, &'static [&'static str]);

#[rustfmt::skip]
const DIMENSIONS: Mix = (
    "DIMENSIONS",
    &[
        "NTAX = 1", "NTAX = 2", "NCHAR = 3", "NCHAR = 3", "NEWTAXA", "NTAX", "NCHAR =", "= 2", "'NTAX' = 1", "NTAX = x",
        "NCHAR = 0", "NTAX = '1'", "NCHAR = \"+3\"", "NCHAR = 003", ",",
    ],
);

#[rustfmt::skip]
const FORMAT: Mix = (
    "FORMAT",
    &[
        "DATATYPE = STANDARD", "DATATYPE = DNA", "DATATYPE = X", "MISSING = ?", "MISSING = N", "MISSING = x", "MISSING = '-'",
        "GAP = -", "GAP = \"?\"", "GAP = X", "GAP = +", "SYMBOLS = \"01\"", "SYMBOLS = \"0 1 2\"", "SYMBOLS = \"ACGT\"",
        "SYMBOLS = \"xX\"", "SYMBOLS = \"0?\"", "SYMBOLS = \"0\"", "SYMBOLS = 01", "RESPECTCASE", "LABELS", "NOTOKENS",
        "INTERLEAVE", "INTERLEAVE = YES", "INTERLEAVE = NO", "INTERLEAVE NO", "GAP", "MISSING =", "=", "GAP = ==",
    ],
);

#[rustfmt::skip]
const LABELS: Mix = (
    "CHARSTATELABELS",
    &[
        "1", "2", "3", "01", "'2'", "4", "0", "a", "b", "'a b'", "''", "\"q\"", "/", "/", "/", ",", ",", ",", "=", "_", "1 a / b c",
        "2 / x", "3 l", "1 /",
    ],
);

#[rustfmt::skip]
const STATE_LABELS: Mix = (
    "STATELABELS",
    &["1 a", "2 b c", "3", ",", ",", ",", "''", "/", "1", "2", "9", "a b c d", "'+3' x", "\"1\"", "_"],
);

#[rustfmt::skip]
const CHARACTER_LABELS: Mix = ("CHARLABELS", &["a", "b", "'c'", "''", "1", ",", "_", "\"x\"", "a b c", "END", "'d e'"]);

#[rustfmt::skip]
const TAXON_LABELS: Mix = ("TAXLABELS", &["a", "A", "b", "''", "'b'", "_", "' '", "a_b", "'a b'", "é", "É", "1", "=", "\"a\""]);

#[rustfmt::skip]
const TYPES: Mix = (
    "TYPESET",
    &[
        "*", "* t =", "t =", "* t =", "t", "=", "( VECTOR )", "( STANDARD )", "(", "ORD :", "UNORD :", "ORD : 1", "UNORD : 2-3",
        "ORD", "UNORD", "ORD", "ALL", ".", ",", ",", "''", ":", "1", "2", "3", "4", "1 - 3", "\\ 2",
    ],
);

#[rustfmt::skip]
const LISTS: Mix = (
    "TYPESET * t = ORD :",
    &[
        "1", "2", "3", ".", "ALL", "-", "'-'", "-3", "1-", "1-3", "2-.", "3-1", "1-3 \\ 2", "\\", "\\ 2", "\\ 0", "\\ '2'", "\\ .", "x",
        "'1'", "\"-\"", ", UNORD : 2", ", UNORD : 3 3", ", ORD : 1", ",", "0", "4", "ALL-2", "+", "1--2", "001",
    ],
);

#[rustfmt::skip]
const STANDARD_CELLS: &[&str] = &[
    "0", "1", "01", "010", "0101", "?", "{01}", "(10)", "{0}", "{", "}", "(", ")", "{0 1}", "{?}", "{}", "2", "-", "'0'", ",", "+", "{02}",
    "{0?}", "{?2}", "{? 2}", "0?1", "a", "b", "c 010", "\n", "'b'", "''", "A",
];

#[rustfmt::skip]
const DNA_CELLS: &[&str] = &[
    "A", "c", "GT", "ACG", "N", "n", "R", "ry", "-", "?", "{AC}", "(GT)", "{R}", "{N}", "{a}", "{A-}", "X", "{X}", "{", "}", "0", "{ACGT}",
    "AXA", "b ACG", "\n", "'c'",
];

fn parts(rng: &mut Rng, pool: &[&str], most: usize) -> String {
    let count = rng.between(0, most);
    let parts: Vec<&str> = (0..count).map(|_| rng.pick(pool)).collect();
    parts.join(" ")
}

fn command(rng: &mut Rng, (head, pool): &Mix, most: usize) -> String {
    format!("{head} {}", parts(rng, pool, most))
}

/// A text with a random command.
pub fn mixed(rng: &mut Rng) -> Draft {
    match rng.below(20) {
        0..=1 => before_matrix(rng, &DIMENSIONS, 5),
        2..=4 => before_matrix(rng, &FORMAT, 4),
        5..=6 => before_matrix(rng, &LABELS, 9),
        7 => before_matrix(rng, &STATE_LABELS, 6),
        8 => before_matrix(rng, &CHARACTER_LABELS, 4),
        9 => before_matrix(rng, &TAXON_LABELS, 4),
        10 => two_label_commands(rng),
        11..=12 => assumptions(rng, &TYPES, 6),
        13..=15 => assumptions(rng, &LISTS, 5),
        _ => matrix(rng),
    }
}

fn before_matrix(rng: &mut Rng, mix: &Mix, most: usize) -> Draft {
    let mut draft = standard(rng, 3);
    if let Some(at) = draft.find(mix.0) {
        draft.commands.remove(at);
    }
    let command = command(rng, mix, most);
    draft.before_matrix(pieces(&command))
}

fn two_label_commands(rng: &mut Rng) -> Draft {
    let first = command(rng, &LABELS, 6);
    let second = rng.choose(&[&STATE_LABELS, &CHARACTER_LABELS]);
    let second = command(rng, second, 4);
    let draft = standard(rng, 3);
    if rng.percent(50) {
        return draft
            .before_matrix(pieces(&first))
            .before_matrix(pieces(&second));
    }
    draft
        .before_matrix(pieces(&second))
        .before_matrix(pieces(&first))
}

fn assumptions(rng: &mut Rng, mix: &Mix, most: usize) -> Draft {
    let draft = standard(rng, 3);
    let command = command(rng, mix, most);
    if rng.percent(80) {
        return draft.with_assumptions(&[&command]);
    }
    let options = rng.pick(&[
        "OPTIONS DEFTYPE = ORD",
        "OPTIONS DEFTYPE = UNORD",
        "OPTIONS DEFTYPE = X",
    ]);
    draft.with_assumptions(&[&command, options])
}

/// Rows of random cells, three to a row or nearly so.
fn matrix(rng: &mut Rng) -> Draft {
    let dna = rng.percent(30);
    let pool = if dna { DNA_CELLS } else { STANDARD_CELLS };
    let interleaved = rng.percent(40);
    let rows = rng.between(1, 3);
    let mut draft = plain(rng);
    let (begin, end) = draft.data_block();
    let ntax = if rng.percent(80) {
        rows
    } else {
        rng.between(1, 3)
    };
    let dimensions = format!("DIMENSIONS NTAX = {ntax} NCHAR = 3");
    let data = if dna { "DNA" } else { "STANDARD" };
    let lines = if interleaved { "INTERLEAVE" } else { "LABELS" };
    let pages = if interleaved { rng.between(1, 2) } else { 1 };
    let mut matrix = pieces("MATRIX");
    for row in 0..rows * pages {
        let name = ["a", "b", "c"][row % rows];
        matrix.extend(pieces(&format!("\n {name} {}", row_parts(rng, pool, dna))));
    }
    matrix
        .iter_mut()
        .for_each(|piece| piece.fixed = interleaved);
    let format = pieces(&format!("FORMAT DATATYPE = {data} {lines}"));
    draft
        .commands
        .splice(begin + 1..end, [pieces(&dimensions), format, matrix]);
    draft
}

fn row_parts(rng: &mut Rng, pool: &[&str], dna: bool) -> String {
    let sound = if dna {
        ["ACG", "A C T", "{AC}NG"]
    } else {
        ["010", "0 1 1", "{01}?1"]
    };
    if rng.percent(45) {
        return rng.pick(&sound).to_string();
    }
    parts(rng, pool, 4)
}
