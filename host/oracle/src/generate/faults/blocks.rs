//! Faults of quotes, comments, commands, blocks, dimensions and formats (lexer.rs, mod.rs).

use super::{DNA, Fault, LAYOUT, NOT_NAMES, any, declared, make, plain, with_dimension};
use crate::generate::draft::{Draft, Piece, keyword, piece, pieces};
use crate::generate::rng::Rng;
use crate::generate::text::Declared;

#[rustfmt::skip]
pub const FAULTS: &[(&str, Fault)] = &[
    ("lexer.rs:81", |rng| {
        let quotes = ["'", "\"", "'a''", "\"x", "'x;\nEND;", "'''"];
        left_open(rng, &quotes, |head, open| head.push(piece(open)))
    }),
    ("lexer.rs:167", |rng| {
        let comments = ["[", "[x", "a[b", "[[]", "[[", "0[", "[a[b]c", "['"];
        left_open(rng, &comments, |head, _| head[0].text.push('['))
    }),
    ("mod.rs:42", |rng| {
        let mut draft = plain(rng);
        draft.head.clear();
        draft.commands.clear();
        let blank = rng.pick(&["", "[x]", "\u{feff}", " ", "\n", "\r\n \t", "[[]]\n[;]", "\u{3000}"]);
        draft.tail.push(piece(blank));
        draft
    }),
    ("mod.rs:48", |rng| {
        let mut draft = plain(rng);
        let heads = ["NEXUS", "'#NEXUS'", "#NEXU", "X", ";", "#NEXUSES", "\"#NEXUS\"", "\u{feff}#NEXUS", "#", "=", ""];
        draft.head = pieces(rng.pick(&heads));
        draft
    }),
    ("mod.rs:57", |rng| {
        let mut draft = plain(rng);
        let wrong = ["BEGIN DATA x", "BEGIN", "x", "END", "'BEGIN' DATA", "BEGIN = DATA", "x DATA", "MATRIX a 0"];
        let at = rng.choose(&[0, draft.commands.len()]);
        draft.commands.insert(at, pieces(rng.pick(&wrong)));
        draft
    }),
    ("mod.rs:62", |rng| {
        let mut draft = declared(rng, Declared::TaxaBlock);
        let taxa = draft.commands[..draft.block_length(0)].to_vec();
        let mut taxa = if rng.percent(50) { taxa } else { vec![pieces("BEGIN TAXA"), pieces("END")] };
        if rng.percent(50) {
            draft.commands.append(&mut taxa);
        } else {
            draft.commands.splice(0..0, taxa);
        }
        draft
    }),
    ("mod.rs:67", |rng| {
        let mut draft = plain(rng);
        let name = rng.pick(&["DATA", "CHARACTERS"]);
        draft.commands.push(vec![keyword(rng, "BEGIN"), keyword(rng, name)]);
        draft.commands.push(pieces("END"));
        draft
    }),
    ("mod.rs:72", |rng| plain(rng).with_assumptions(&[]).with_assumptions(&[])),
    ("mod.rs:76", |rng| {
        let mut draft = plain(rng);
        draft.commands.splice(0..0, [pieces("BEGIN ASSUMPTIONS"), pieces("END")]);
        draft
    }),
    ("mod.rs:87", |rng| {
        let mut draft = plain(rng);
        let names = ["SETS", "'DATA'", "=", "\"TAXA\"", "MRBAYES", "CODONS", "é", "(", "'a;b'", "TREE", "'x;\nmodel'"];
        let block = [pieces("BEGIN"), pieces(rng.pick(&names))].concat();
        let at = rng.choose(&[0, draft.commands.len()]);
        draft.commands.splice(at..at, [block, pieces("END")]);
        draft
    }),
    ("mod.rs:93", |rng| {
        let mut draft = declared(rng, Declared::TaxaBlock);
        let taxa = draft.find("TAXLABELS").expect("taxa") + 2;
        let keep = rng.choose(&[0, taxa]);
        draft.commands.truncate(keep);
        if rng.percent(30) {
            draft.commands.extend([pieces("BEGIN TREES"), pieces("END")]);
        }
        draft
    }),
    ("mod.rs:99", |rng| {
        let draft = make(rng, &DNA, &LAYOUT);
        let typeset = rng.pick(&["OPTIONS DEFTYPE = ORD", "TYPESET * t = ORD : 1", "TYPESET t = ORD : ALL", "TYPESET t = ORD : ."]);
        draft.with_assumptions(&[typeset])
    }),
    ("mod.rs:130", |rng| {
        let mut draft = any(rng);
        let at = rng.between(0, draft.commands.len());
        draft.commands.insert(at, Vec::new());
        draft
    }),
    ("mod.rs:135", |rng| {
        let mut draft = any(rng);
        let keep = rng.between(1, draft.commands.len());
        draft.commands.truncate(keep);
        draft.tail = draft.commands.pop().expect("a command");
        draft
    }),
    ("mod.rs:140", |rng| {
        let mut draft = any(rng);
        let at = rng.below(draft.commands.len());
        draft.commands.truncate(at.max(1));
        draft
    }),
    ("mod.rs:151", |rng| {
        let mut draft = any(rng);
        let ends: Vec<usize> = (0..draft.commands.len()).filter(|&i| draft.commands[i].len() == 1).collect();
        let at = rng.choose(&ends);
        draft.commands[at].push(piece(rng.pick(&["DATA", "x", "=", "'a'", ",", "END"])));
        draft
    }),
    ("mod.rs:161", |rng| {
        let place = rng.choose(&[Declared::TaxaBlock, Declared::DataBlock]);
        let mut draft = declared(rng, place);
        let labels = draft.command("TAXLABELS");
        let at = rng.between(1, labels.len());
        labels.insert(at, piece(rng.pick(NOT_NAMES)));
        draft
    }),
    ("mod.rs:163", |rng| {
        let place = rng.choose(&[Declared::TaxaBlock, Declared::DataBlock]);
        let mut draft = declared(rng, place);
        let labels = draft.command("TAXLABELS");
        let name = labels[rng.between(1, labels.len() - 1)].text.clone();
        let name = if name.is_ascii() && rng.percent(50) { name.to_ascii_uppercase() } else { name };
        labels.push(piece(name));
        draft
    }),
    ("mod.rs:192", |rng| {
        let mut draft = plain(rng);
        let wrong = ["NTAXA", "'NTAX'", "\"NCHAR\"", "=", "NEWTAXA NEWTAXA", "2", ",", "FOO = 2", "NTAX = 1 = 2"];
        let at = rng.choose(&[1, draft.command("DIMENSIONS").len()]);
        draft.command("DIMENSIONS").splice(at..at, pieces(rng.pick(&wrong[..8])));
        draft
    }),
    ("mod.rs:195", |rng| {
        let mut draft = plain(rng);
        let again = rng.pick(&["NTAX = 1", "NCHAR = 2", "NTAX", "NCHAR =", "ntax = x", "Nchar"]);
        draft.command("DIMENSIONS").extend(pieces(again));
        draft
    }),
    ("mod.rs:203", |rng| {
        let option = rng.pick(&["NTAX", "NCHAR"]);
        let value = rng.pick(&[
            "0", "x", "-1", "''", "'1 '", "+", "+2", "18446744073709551616", "1.0", "00", "'+'", "'-1'", "1_0", "\u{664}",
            "\"\"", "=", "0x2", "2a", "' 2'", "'++2'", "99999999999999999999999999",
        ]);
        with_dimension(plain(rng), option, value)
    }),
    ("mod.rs:211", |rng| {
        let mut draft = plain(rng);
        let head = rng.pick(&["DIMENSIONS", "FORMAT"]);
        if head == "FORMAT" {
            return draft.with_format(rng.pick(&[
                "FORMAT MISSING", "FORMAT GAP -", "FORMAT SYMBOLS \"01\"", "FORMAT DATATYPE DNA", "FORMAT GAP '=' -", "FORMAT MISSING : ?",
            ]));
        }
        let command = draft.command(head);
        let equals: Vec<usize> = (0..command.len()).filter(|&i| command[i].text == "=").collect();
        let at = rng.choose(&equals);
        match rng.below(3) {
            0 => { command.remove(at); }
            1 => command[at].text = "'='".into(),
            _ => command.truncate(at),
        }
        draft
    }),
    ("mod.rs:215", |rng| {
        let mut draft = plain(rng);
        if rng.percent(60) {
            return draft.with_format(rng.pick(&[
                "FORMAT MISSING =", "FORMAT GAP =", "FORMAT SYMBOLS =", "FORMAT DATATYPE =", "FORMAT INTERLEAVE =", "FORMAT LABELS GAP =",
            ]));
        }
        let command = draft.command("DIMENSIONS");
        command.truncate(3);
        draft
    }),
    ("mod.rs:232", |rng| {
        let mut draft = declared(rng, Declared::TaxaBlock);
        let more = rng.pick(&["NCHAR = 1", "NEWTAXA", "NEWTAXA NCHAR = 3"]);
        draft.command("DIMENSIONS").extend(pieces(more));
        draft
    }),
    ("mod.rs:236", |rng| {
        let mut draft = declared(rng, Declared::TaxaBlock);
        draft.command("DIMENSIONS").truncate(1);
        draft
    }),
    ("mod.rs:241", |rng| {
        let mut draft = declared(rng, Declared::TaxaBlock);
        let at = rng.between(1, 3);
        match rng.below(3) {
            0 => draft.commands.swap(1, 2),
            1 => {
                let again = draft.commands[at.min(2)].clone();
                draft.commands.insert(at, again);
            }
            _ => draft.commands.insert(at, pieces(rng.pick(&["TITLE x", "'TAXLABELS' a", "MATRIX", "BEGIN DATA", "="]))),
        }
        draft
    }),
    ("mod.rs:244", |rng| {
        let mut draft = declared(rng, Declared::TaxaBlock);
        let count = rng.choose(&[1, 2]);
        draft.commands.drain(3 - count..3);
        draft
    }),
    ("mod.rs:246", |rng| {
        let mut draft = declared(rng, Declared::TaxaBlock);
        match rng.below(3) {
            0 => { draft.command("TAXLABELS").pop(); }
            1 => draft.command("TAXLABELS").push(piece("onemore")),
            _ => {
                let count = rng.pick(&["9", "18446744073709551615", "77"]);
                return with_dimension(draft, "NTAX", count);
            }
        }
        draft
    }),
    ("mod.rs:295", |rng| {
        let format = rng.pick(&[
            "FORMAT LABELS LABELS", "FORMAT MISSING = ? MISSING = ?", "FORMAT GAP = - GAP", "FORMAT INTERLEAVE = NO INTERLEAVE",
            "FORMAT RESPECTCASE respectcase", "FORMAT SYMBOLS = \"01\" 'SYMBOLS'", "FORMAT DATATYPE = DNA DATATYPE = X", "FORMAT NOTOKENS NoTokens",
        ]);
        plain(rng).with_format(format)
    }),
    ("mod.rs:304", |rng| {
        let value = rng.pick(&["RNA", "PROTEIN", "'DNA'", "\"STANDARD\"", "=", "MIXED", "NUCLEOTIDE", "CONTINUOUS"]);
        plain(rng).with_format(&format!("FORMAT DATATYPE = {value}"))
    }),
    ("mod.rs:318", |rng| {
        let value = rng.pick(&["MAYBE", "'YES'", "\"NO\"", "=", "1", "Y", "TRUE"]);
        plain(rng).with_format(&format!("FORMAT INTERLEAVE = {value}"))
    }),
    ("mod.rs:324", |rng| {
        let value = rng.pick(&["01", "'01'", "0", "=", "(", "ACGT"]);
        plain(rng).with_format(&format!("FORMAT SYMBOLS = {value}"))
    }),
    ("mod.rs:334", |rng| {
        let option = rng.pick(&["MISSING", "GAP"]);
        let value = rng.pick(&["??", "''", "\"\"", "=", "é", "'xy'", "(", "'['", "~", "\"'\"", "\\", "*", "<", "^", "'\u{a0}'", "'?\n'", "\u{7f}"]);
        plain(rng).with_format(&format!("FORMAT {option} = {value}"))
    }),
    ("mod.rs:341", |rng| {
        let option = rng.pick(&["TRANSPOSE", "'LABELS'", "=", "LABELS = LEFT", "EQUATE = x", "\"GAP\"", "INTERLEAVE NO", "MATCHCHAR = .", "ITEMS", "é"]);
        plain(rng).with_format(&format!("FORMAT {option}"))
    }),
    ("mod.rs:348", |rng| {
        let more = rng.pick(&["RESPECTCASE", "SYMBOLS = \"01\"", "SYMBOLS = \"acgt\"", "SYMBOLS = \"ACG\"", "SYMBOLS = \"\"", "SYMBOLS = \"ACTG\""]);
        plain(rng).with_format(&format!("FORMAT DATATYPE = DNA {more}"))
    }),
    ("mod.rs:362", |rng| {
        let more = rng.pick(&["MISSING = A", "MISSING = r", "GAP = N", "GAP = n", "GAP = C", "MISSING = N GAP = Y", "GAP = k MISSING = -"]);
        plain(rng).with_format(&format!("FORMAT DATATYPE = DNA {more}"))
    }),
    ("mod.rs:369", |rng| {
        let symbols = rng.pick(&["\"\"", "\"0\"", "\"0[\"", "\"0~\"", "\"é1\"", "\"01;\"", "\"01/\"", "\"0*\"", "\"(01)\"", "\"0'\"", "\"01\\\"", "\"01<\"", "\"\u{a0}1\"", "\"0,1\""]);
        plain(rng).with_format(&format!("FORMAT SYMBOLS = {symbols}"))
    }),
    ("mod.rs:376", |rng| {
        let format = rng.pick(&[
            "SYMBOLS = \"00\"", "SYMBOLS = \"aA\"", "SYMBOLS = \"01?\"", "MISSING = 0", "GAP = 1", "SYMBOLS = \"ab\" MISSING = B",
            "SYMBOLS = \"aA\" RESPECTCASE GAP = A", "SYMBOLS = \"01-\" GAP = -", "SYMBOLS = \"010\" RESPECTCASE", "GAP = ? MISSING = 1",
        ]);
        plain(rng).with_format(&format!("FORMAT {format}"))
    }),
    ("mod.rs:380", |rng| {
        let format = rng.pick(&["GAP = ?", "MISSING = x GAP = X", "DATATYPE = DNA MISSING = -", "MISSING = - GAP = -", "DATATYPE = DNA GAP = ?", "RESPECTCASE GAP = ?"]);
        plain(rng).with_format(&format!("FORMAT {format}"))
    }),
    ("mod.rs:404", |rng| {
        let mut draft = any(rng);
        let at = draft.data_block().1;
        draft.commands.insert(at, pieces(rng.pick(&["MATRIX a 0", "FORMAT", "DIMENSIONS NTAX = 1", "x", "'END'", "CHARLABELS a", "="])));
        draft
    }),
    ("mod.rs:407", |rng| {
        let draft = any(rng);
        let (begin, end) = draft.data_block();
        let again = draft.commands[rng.between(begin + 1, end - 2)].clone();
        let mut again = if rng.percent(60) { again } else { vec![again[0].clone()] };
        if rng.percent(15) {
            again[0].text = format!("'{}'", again[0].text);
        }
        draft.before_matrix(again)
    }),
    ("mod.rs:415", |rng| {
        let labels = rng.pick(&["TAXLABELS a b", "TAXLABELS", "TAXLABELS = ''", "taxlabels x x"]);
        declared(rng, Declared::TaxaBlock).before_matrix(pieces(labels))
    }),
    ("mod.rs:423", |rng| {
        let mut draft = plain(rng);
        let at = draft.find("DIMENSIONS").expect("dimensions");
        draft.commands.remove(at);
        draft
    }),
    ("mod.rs:426", |rng| {
        let mut draft = plain(rng);
        let dimensions = rng.pick(&["DIMENSIONS", "DIMENSIONS NTAX = 2", "DIMENSIONS NEWTAXA NTAX = 1", "DIMENSIONS NEWTAXA"]);
        *draft.command("DIMENSIONS") = pieces(dimensions);
        draft
    }),
    ("mod.rs:432", |rng| {
        let mut draft = plain(rng);
        let dimensions = rng.pick(&["DIMENSIONS NCHAR = 2", "DIMENSIONS NEWTAXA NCHAR = 1"]);
        *draft.command("DIMENSIONS") = pieces(dimensions);
        if rng.percent(30) {
            return draft.before_matrix(pieces("TAXLABELS"));
        }
        draft
    }),
    ("mod.rs:435", |rng| {
        let place = rng.choose(&[Declared::TaxaBlock, Declared::DataBlock]);
        let mut draft = declared(rng, place);
        let at = draft.data_block().0;
        let dimensions = draft.commands[at..].iter().position(|c| c[0].text.eq_ignore_ascii_case("DIMENSIONS"));
        let count = draft.taxa + rng.choose(&[1, 2, 40]);
        draft.commands[at + dimensions.expect("dimensions")] = pieces(&format!("DIMENSIONS NCHAR = 1 NTAX = {count}"));
        draft
    }),
    ("mod.rs:438", |rng| {
        let place = rng.choose(&[Declared::TaxaBlock, Declared::DataBlock]);
        let mut draft = declared(rng, place);
        let at = draft.data_block().0;
        let dimensions = draft.commands[at..].iter().position(|c| c[0].text.eq_ignore_ascii_case("DIMENSIONS"));
        draft.commands[at + dimensions.expect("dimensions")] = pieces(rng.pick(&["DIMENSIONS NEWTAXA NCHAR = 1", "DIMENSIONS NCHAR = 2 NEWTAXA"]));
        draft
    }),
    ("mod.rs:448", |rng| {
        let place = rng.choose(&[Declared::TaxaBlock, Declared::DataBlock]);
        let mut draft = declared(rng, place);
        let labels = draft.command("TAXLABELS");
        let at = rng.between(1, labels.len() - 1);
        let others = ["other", "'a\"b'", "'x, character 1: y'", "é", "'absent from MATRIX'", "'\\'", "'o\n'"];
        labels[at] = piece(rng.pick(&others));
        draft
    }),
    ("mod.rs:470", |rng| {
        let command = rng.pick(&["TITLE x", "'MATRIX' a 0", "OPTIONS GAPMODE = MISSING", "=", "ELIMINATE 1", "\"FORMAT\"", "CHARSET x = 1", "é", "BEGIN TREES"]);
        plain(rng).before_matrix(pieces(command))
    }),
    ("mod.rs:473", |rng| {
        let mut draft = any(rng);
        let at = draft.find("MATRIX").expect("a matrix");
        draft.commands.remove(at);
        draft
    }),
];

/// A text with one of these left open: at its end, in its head as `in_head` puts it there, or in
/// a command.
fn left_open(rng: &mut Rng, opens: &[&str], in_head: fn(&mut Vec<Piece>, &str)) -> Draft {
    let mut draft = any(rng);
    let open = rng.pick(opens);
    match rng.below(3) {
        0 => draft.tail.push(piece(open)),
        1 => in_head(&mut draft.head, open),
        _ => {
            let at = rng.below(draft.commands.len());
            draft.commands[at].push(piece(open));
        }
    }
    draft
}
