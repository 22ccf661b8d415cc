//! The damages: each breaks a single condition of refusal 31.

use super::lines::{
    Lines, add, edit_cell, edit_name, edit_value, insert_in_name, insert_within_name, key_of,
    places, swapped_case,
};
use crate::generate::reading::valid_symbols;
use crate::generate::rng::Rng;

/// What is wrong with a damaged record, and how a sound one comes to it.
pub struct Damage {
    pub what: &'static str,
    pub(super) way: Way,
}

pub(super) enum Way {
    /// The function says whether the record could have this damage.
    Lines(fn(&mut Rng, &mut Lines) -> bool),
    Bytes(fn(&mut Rng, &mut Vec<u8>)),
}

const fn damage(what: &'static str, change: fn(&mut Rng, &mut Lines) -> bool) -> Damage {
    Damage {
        what,
        way: Way::Lines(change),
    }
}

const fn damage_of_bytes(what: &'static str, change: fn(&mut Rng, &mut Vec<u8>)) -> Damage {
    Damage {
        what,
        way: Way::Bytes(change),
    }
}

/// White_Space but U+0020 and CR, LF as it is escaped.
const BLANKS: &[&str] = &[
    "\\0", "\t", "\u{b}", "\u{c}", "\u{85}", "\u{a0}", "\u{1680}", "\u{2000}", "\u{2001}",
    "\u{2002}", "\u{2003}", "\u{2004}", "\u{2005}", "\u{2006}", "\u{2007}", "\u{2008}", "\u{2009}",
    "\u{200a}", "\u{2028}", "\u{2029}", "\u{202f}", "\u{205f}", "\u{3000}",
];

const COUNTS: &[&str] = &["taxa=", "characters=", "character=", "states="];

pub const DAMAGES: &[Damage] = &[
    damage("a leading zero in a count", |rng, lines| {
        let key = rng.pick(&["taxa=", "characters=", "character=", "states="]);
        edit_value(rng, lines, key, |_, value| value.insert(0, b'0'))
    }),
    damage("a sign before a count", |rng, lines| {
        let key = rng.pick(&["taxa=", "characters=", "character=", "states="]);
        edit_value(rng, lines, key, |rng, value| {
            value.insert(0, rng.choose(b"+- "))
        })
    }),
    damage("a count without digits", |rng, lines| {
        let key = rng.pick(&["taxa=", "characters=", "character=", "states="]);
        edit_value(rng, lines, key, |_, value| value.clear())
    }),
    damage("a count of 0", |rng, lines| {
        let key = rng.pick(&["taxa=", "characters=", "character="]);
        edit_value(rng, lines, key, |_, value| *value = b"0".to_vec())
    }),
    damage("a count above 1,048,576", |rng, lines| {
        let key = rng.pick(&["taxa=", "characters="]);
        edit_value(rng, lines, key, |rng, value| {
            let counts = ["1048577", "9999999", "4294967297", "18446744073709551617"];
            *value = rng.pick(&counts).as_bytes().to_vec();
        })
    }),
    damage("a count too high by one", |rng, lines| {
        let key = rng.pick(&["taxa=", "characters=", "character=", "states="]);
        edit_value(rng, lines, key, |_, value| add(value, 1))
    }),
    damage("a count too low by one", |rng, lines| {
        let key = rng.pick(&["taxa=", "characters=", "character=", "states="]);
        let low = |line: &[u8]| line == [key.as_bytes(), b"0"].concat();
        if lines.iter().any(|line| low(line)) {
            return false;
        }
        edit_value(rng, lines, key, |_, value| add(value, -1))
    }),
    damage("two lines in the other order", |rng, lines| {
        let at = rng.below(lines.len() - 1);
        let differ = key_of(&lines[at]) != key_of(&lines[at + 1]);
        lines.swap(at, at + 1);
        differ
    }),
    damage("a line left out", |rng, lines| {
        let at = rng.below(lines.len());
        lines.remove(at);
        true
    }),
    damage("a line twice", |rng, lines| {
        let at = rng.below(lines.len());
        lines.insert(at, lines[at].clone());
        true
    }),
    damage("an empty line", |rng, lines| {
        let at = rng.below(lines.len() + 1);
        lines.insert(at, Vec::new());
        true
    }),
    damage("a key in capitals", |rng, lines| {
        let at = rng.below(lines.len());
        lines[at][0].make_ascii_uppercase();
        true
    }),
    damage("a key without its =", |rng, lines| {
        let at = rng.below(lines.len());
        let mark = lines[at].iter().position(|&b| b == b'=').expect("a key");
        lines[at].remove(mark);
        // `label` and `state` may hold another = right after it.
        lines[at].get(mark) != Some(&b'=')
    }),
    damage("a blank before a key", |rng, lines| {
        let at = rng.below(lines.len());
        lines[at].insert(0, b' ');
        true
    }),
    damage("another data type", |rng, lines| {
        edit_value(rng, lines, "datatype=", |rng, value| {
            let types = ["standard", "Dna", "RNA", "", "STANDARD ", "MIXED"];
            *value = rng.pick(&types).as_bytes().to_vec();
        })
    }),
    damage("DNA with other symbols", |rng, lines| {
        let dna = lines[0] == b"datatype=DNA";
        edit_value(rng, lines, "symbols=", |rng, value| {
            let symbols = ["ACG", "ACGTA", "acgt", "AGCT", "01", ""];
            *value = rng.pick(&symbols).as_bytes().to_vec();
        }) && dna
    }),
    damage("fewer than two symbols", |rng, lines| {
        edit_value(rng, lines, "symbols=", |rng, value| {
            value.truncate(rng.below(2))
        })
    }),
    damage("a symbol twice", |rng, lines| {
        edit_value(rng, lines, "symbols=", |rng, value| {
            let symbol = value[rng.below(value.len())];
            value.push(symbol);
        })
    }),
    damage("an invalid symbol", |rng, lines| {
        edit_value(rng, lines, "symbols=", |rng, value| {
            let wrong = rng.choose(b"()[]{}/\\,;:=*'\"`<>~^ \x00\x7f\t\r\xc3\xff");
            let at = rng.below(value.len() + 1);
            value.insert(at, wrong);
        })
    }),
    damage("74 symbols", |rng, lines| {
        let standard = lines[0] == b"datatype=STANDARD";
        let all = valid_symbols();
        edit_value(rng, lines, "symbols=", |_, value| {
            *value = all.iter().map(|&c| c as u8).collect();
        }) && standard
    }),
    damage("73 symbols and a gap", |rng, lines| {
        let standard = lines[0] == b"datatype=STANDARD";
        let all = valid_symbols();
        edit_value(rng, lines, "symbols=", |_, value| {
            *value = all.iter().skip(1).map(|&c| c as u8).collect();
        });
        edit_cell(rng, lines, |_, cell| *cell = b"g".to_vec()) && standard
    }),
    damage("a _ in a name", |rng, lines| {
        insert_in_name(rng, lines, b"_")
    }),
    damage("a CR in a name", |rng, lines| {
        insert_in_name(rng, lines, b"\r")
    }),
    damage("a CR before the LF of a line", |rng, lines| {
        let at = rng.below(lines.len());
        lines[at].push(b'\r');
        true
    }),
    damage("a wrong escape in a name", |rng, lines| {
        let wrong: &[&[u8]] = &[b"\\2", b"\\n", b"\\ ", b"\\9", b"\\_"];
        let wrong = rng.pick(wrong);
        edit_name(rng, lines, |_, name| name.extend(wrong))
    }),
    damage("a backslash at a name's end", |rng, lines| {
        edit_name(rng, lines, |_, name| name.push(b'\\'))
    }),
    damage("a name that is not UTF-8", |rng, lines| {
        let wrong: &[&[u8]] = &[
            b"\xff",
            b"\x80",
            b"\xc3",
            b"\xed\xa0\x80",
            b"\xf4\x90\x80\x80",
        ];
        let wrong = rng.pick(wrong);
        edit_name(rng, lines, |_, name| name.extend(wrong))
    }),
    damage("an empty name", |rng, lines| {
        let key = rng.pick(&["name=", "state="]);
        edit_value(rng, lines, key, |_, value| value.clear())
    }),
    damage("a blank name without U+0020", |rng, lines| {
        edit_name(rng, lines, |rng, name| {
            let blanks = [
                "\\0",
                "\t",
                "\u{a0}",
                "\u{3000}",
                "\\0\t",
                "\u{2028}",
                "\u{85}\u{b}",
            ];
            *name = rng.pick(&blanks).as_bytes().to_vec();
        })
    }),
    damage("two names equal, ASCII case ignored", |rng, lines| {
        let names = places(lines, "name=");
        if names.len() < 2 {
            return false;
        }
        let (first, other) = (names[0], names[rng.between(1, names.len() - 1)]);
        lines[other] = lines[first].clone();
        let change = |byte: &mut u8| *byte = swapped_case(*byte);
        if rng.percent(70) {
            lines[other].iter_mut().skip("name=".len()).for_each(change);
        }
        true
    }),
    damage("a state index too high", |rng, lines| {
        let symbols = lines[3].len() - "symbols=".len();
        let prefix = rng.pick(&["", "u", "p", "u0.", "p0."]);
        let index = symbols + rng.choose(&[0, 1, 100]);
        let cell = format!("{prefix}{index}");
        edit_cell(rng, lines, move |_, old| *old = cell.clone().into_bytes())
    }),
    damage("indices that do not rise", |rng, lines| {
        let cell = rng.pick(&["u1.0", "p1.0", "u0.0", "p1.1", "u0.1.1", "p0.1.0"]);
        edit_cell(rng, lines, move |_, old| *old = cell.as_bytes().to_vec())
    }),
    damage("a cell of another form", |rng, lines| {
        let cell = rng.pick(&[
            "u", "p", "u.", "u0.", "u.0", "0.1", "M", "G", "U0", "mm", "m0", "00", "01", "u00",
            "+0", "-", "?", "x", "u0..1", "0u", "u-0", "u 0", "{0}", "e",
        ]);
        edit_cell(rng, lines, move |_, old| *old = cell.as_bytes().to_vec())
    }),
    damage(
        "two blanks between cells, or one at an end",
        |rng, lines| {
            edit_value(rng, lines, "cells=", |rng, cells| {
                let blanks: Vec<usize> = (0..cells.len()).filter(|&i| cells[i] == b' ').collect();
                let ends = vec![0, cells.len()];
                let at = rng.choose(if blanks.is_empty() { &ends } else { &blanks });
                cells.insert(at, b' ');
            })
        },
    ),
    damage("a row short of a cell", |rng, lines| {
        edit_value(rng, lines, "cells=", |_, cells| {
            let last = cells.iter().rposition(|&byte| byte == b' ');
            cells.truncate(last.unwrap_or(0));
        })
    }),
    damage("a row with a cell too much", |rng, lines| {
        edit_value(rng, lines, "cells=", |_, cells| cells.extend(b" m"))
    }),
    damage("characters in another order", |rng, lines| {
        edit_value(rng, lines, "character=", |rng, value| {
            add(value, rng.between(1, 3) as i128)
        })
    }),
    damage("another type of a character", |rng, lines| {
        edit_value(rng, lines, "order=", |rng, value| {
            let types = ["ord", "UNORD ", "", "ORDERED", "Unord", "DOLLO"];
            *value = rng.pick(&types).as_bytes().to_vec();
        })
    }),
    damage("ordered DNA", |rng, lines| {
        let dna = lines[0] == b"datatype=DNA";
        edit_value(rng, lines, "order=", |_, value| *value = b"ORD".to_vec()) && dna
    }),
    damage("more states than symbols", |rng, lines| {
        let symbols = lines[3].len() - "symbols=".len();
        let at = places(lines, "states=");
        let at = at[rng.below(at.len())];
        let own = lines[at + 1..]
            .iter()
            .take_while(|l| l.starts_with(b"state="))
            .count();
        for _ in own..=symbols {
            lines.insert(at + 1, b"state=x".to_vec());
        }
        lines[at] = format!("states={}", symbols + 1).into_bytes();
        true
    }),
    damage("bytes after the end", |rng, lines| {
        let last = rng.pick(&["", "x", "state=x", "character=1", "name=q"]);
        lines.push(last.as_bytes().to_vec());
        true
    }),
    damage("another key", |rng, lines| {
        let at = rng.below(lines.len());
        let key = key_of(&lines[at]).to_vec();
        let other = rng.pick(&[
            "datatype",
            "taxa",
            "taxon",
            "characters",
            "character",
            "symbols",
            "symbol",
            "name",
            "names",
            "cells",
            "cell",
            "label",
            "labels",
            "order",
            "type",
            "states",
            "state",
            "",
        ]);
        lines[at].splice(..key.len(), other.bytes());
        other.as_bytes() != key
    }),
    damage("more behind a count", |rng, lines| {
        let key = rng.pick(COUNTS);
        edit_value(rng, lines, key, |rng, value| {
            let more = rng.pick(&[" ", "x", ".", ".0", "\t", "\u{661}", "\u{0}", "="]);
            value.extend(more.bytes());
        })
    }),
    damage(
        "a count that is right but for a power of two",
        |rng, lines| {
            let key = rng.pick(COUNTS);
            edit_value(rng, lines, key, |rng, value| {
                add(value, 1 << rng.choose(&[8, 16, 31, 32, 63, 64]))
            })
        },
    ),
    damage(
        "an index that is right but for a power of two",
        |rng, lines| {
            let index = 1_i128 << rng.choose(&[7, 8, 16, 31, 32, 63, 64]);
            let prefix = rng.pick(&["", "u", "p", "u0.", "p0."]);
            let low = i128::from(prefix.ends_with('.'));
            let cell = format!("{prefix}{}", index + low);
            edit_cell(rng, lines, move |_, old| *old = cell.clone().into_bytes())
        },
    ),
    damage("a _ within a name", |rng, lines| {
        insert_within_name(rng, lines, b"_")
    }),
    damage("a CR within a name", |rng, lines| {
        insert_within_name(rng, lines, b"\r")
    }),
    damage("a wrong escape within a name", |rng, lines| {
        let wrong: &[&[u8]] = &[b"\\2", b"\\n", b"\\ ", b"\\9", b"\\_", b"\\/", b"\\\\"];
        let wrong = rng.pick(wrong);
        insert_within_name(rng, lines, wrong)
    }),
    damage("bytes within a name that are not UTF-8", |rng, lines| {
        let wrong: &[&[u8]] = &[
            b"\xff",
            b"\x80",
            b"\xbf",
            b"\xc0\x80",
            b"\xc1\xbf",
            b"\xe0\x9f\xbf",
            b"\xed\xbf\xbf",
            b"\xf0\x8f\xbf\xbf",
            b"\xf4\x90\x80\x80",
            b"\xf5\x80\x80\x80",
            b"\xe2\x82",
            b"\xc3\\0",
        ];
        let wrong = rng.pick(wrong);
        insert_within_name(rng, lines, wrong)
    }),
    damage("a name of any blanks without U+0020", |rng, lines| {
        edit_name(rng, lines, |rng, name| {
            let count = rng.between(1, 3);
            *name = (0..count).flat_map(|_| rng.pick(BLANKS).bytes()).collect();
        })
    }),
    damage(
        "two of many names equal, but for one letter's case",
        |rng, lines| {
            let names = places(lines, "name=");
            if names.len() < 3 {
                return false;
            }
            let from = rng.between(0, names.len() - 2);
            let to = rng.between(from + 1, names.len() - 1);
            lines[names[to]] = lines[names[from]].clone();
            let name = &mut lines[names[to]]["name=".len()..];
            if let Some(letter) = name.iter_mut().find(|byte| byte.is_ascii_alphabetic()) {
                *letter = swapped_case(*letter);
            }
            true
        },
    ),
    damage("another byte between cells", |rng, lines| {
        let byte = rng.choose(b"\t,.\r\x00;");
        let mut parted = false;
        for at in places(lines, "cells=") {
            let blank = lines[at].iter().rposition(|&byte| byte == b' ');
            if let Some(blank) = blank {
                lines[at][blank] = byte;
                parted = true;
            }
        }
        parted
    }),
    damage_of_bytes("no LF at the end", |_, record| {
        record.pop();
    }),
    damage_of_bytes("a record cut short", |rng, record| {
        let length = rng.below(record.len());
        record.truncate(length);
    }),
    damage_of_bytes("bytes after the last LF", |rng, record| {
        record.push(rng.choose(b"\n \x00x\xff"));
    }),
    damage_of_bytes("a byte order mark", |_, record| {
        record.splice(0..0, "\u{feff}".bytes());
    }),
    damage_of_bytes("two records", |_, record| {
        record.extend(record.clone());
    }),
];
