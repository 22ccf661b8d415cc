//! Hints, where what was met makes one obvious.

/// What a refusal has met.
pub struct Seen<'a> {
    /// The refusal's number.
    pub number: u32,
    /// The bytes that were refused.
    pub text: &'a [u8],
    /// The word at the place.
    pub word: &'a str,
    /// Is it the first of its line?
    pub leads: bool,
}

impl Seen<'_> {
    /// Does the text have these letters somewhere, in any case?
    fn has(&self, letters: &str) -> bool {
        let mut windows = self.text.windows(letters.len());
        windows.any(|window| window.eq_ignore_ascii_case(letters.as_bytes()))
    }
}

/// What may mend it.
pub fn hint(seen: &Seen<'_>) -> Option<String> {
    let word = seen.word.to_ascii_uppercase();
    let fixed = match seen.number {
        1 => "take out comments and a TREES block, or part the matrix",
        3 => return Some(encoding(seen)),
        4 => quote(seen.word),
        5 => "each `[` opens a comment, also within one, and needs a `]` of its own",
        6 => beginning(seen),
        7 => "take this `;` out",
        8 => "put a `;` behind the last word of this command",
        9 => "close the block with `END;`",
        10 => "write `END;` and nothing between",
        11 => no_block(&word),
        12 => block(&word),
        13 => command(&word),
        14 => absent(&word),
        15 => "write `DIMENSIONS NTAX=4 NCHAR=10;` with your numbers",
        16 => count(&word),
        17 => "put a name that has marks in it into single quotes, as in 'A. (B.) c'",
        18 => "names are the same if only the case of letters differs, or `_` stands for a blank",
        19 => return Some(format!("write `{}=` and a value", seen.word)),
        _ => return later(seen, &word),
    };
    Some(fixed.to_string())
}

/// Hints for what FORMAT declares, for rows, labels, types and records.
fn later(seen: &Seen<'_>, word: &str) -> Option<String> {
    let fixed = match seen.number {
        20 => option(word),
        21 => "states, MISSING and GAP are all different, and there are two states at least",
        22 => symbol(seen),
        23 => "write a set as {01} or (01): one state at least, and the bracket that closes it",
        24 if seen.has("INTERLEAVE") => "each page has all names in one order, and one width",
        24 => "count the cells of this row: a set in brackets is one, and NCHAR says how many",
        25 => "each name of TAXLABELS needs a row, spelled as there",
        26 => "write an entry as `2 label / first second`: its number, and states behind a `/`",
        27 => "write `TYPESET * name = ORD: 1-3, UNORD: 4;`",
        28 => "write numbers from 1 to NCHAR, ranges as 1-4 or 2-.\\3, or ALL",
        29 => "take the ordered types out, or write the data as DATATYPE=STANDARD",
        31 => return no_record(seen).map(str::to_string),
        32 => "part the record: its NEXUS text would have more than 1,048,576 bytes",
        _ => return None,
    };
    Some(fixed.to_string())
}

/// The first bytes that are not UTF-8, and what they may be.
fn encoding(seen: &Seen<'_>) -> String {
    if let [0xff, 0xfe, ..] | [0xfe, 0xff, ..] = seen.text {
        return "this looks like UTF-16; `iconv -f UTF-16 -t UTF-8` makes UTF-8 of it".to_string();
    }
    let valid = match std::str::from_utf8(seen.text) {
        Ok(_) => seen.text.len(),
        Err(error) => error.valid_up_to(),
    };
    let (before, rest) = seen.text.split_at(valid);
    let line = newlines(before) + 1;
    let byte = rest.first().copied().unwrap_or_default();
    format!(
        "the byte {byte:#04X} on line {line} is the first that is not UTF-8; where the text is \
        Latin-1, `iconv -f LATIN1 -t UTF-8` makes UTF-8 of it"
    )
}

/// How many newlines there are: LF, CR, or CR LF.
fn newlines(bytes: &[u8]) -> usize {
    let pairs = bytes.windows(2).filter(|pair| *pair == b"\r\n").count();
    bytes.iter().filter(|byte| b"\r\n".contains(byte)).count() - pairs
}

fn quote(word: &str) -> &'static str {
    match word.starts_with('\'') {
        true => "close it; a quote or apostrophe within a name is written twice: 'Grevy''s'",
        false => "close it with another double quote",
    }
}

/// What a text that does not begin with #NEXUS may be.
fn beginning(seen: &Seen<'_>) -> &'static str {
    let start = seen.text.trim_ascii_start();
    match start {
        [] => "the text is empty",
        [b'>', ..] => "this looks like FASTA, which is not read",
        [b'<', ..] => "this looks like XML, which is not read",
        [b'0'..=b'9', ..] => "this looks like PHYLIP, which is not read",
        _ if start.starts_with(b"datatype=") => {
            "this looks like a record; `nexus write` makes a NEXUS text of it"
        }
        _ => "write `#NEXUS` on the first line",
    }
}

fn no_block(word: &str) -> &'static str {
    match word {
        "BEGIN" => "write `BEGIN`, one name and `;`",
        "END" | "ENDBLOCK" => "no block is open here",
        _ => "commands stand in a block, between `BEGIN DATA;` and `END;`",
    }
}

fn block(word: &str) -> &'static str {
    match word {
        "TAXA" => "TAXA stands once, before the matrix",
        "DATA" | "CHARACTERS" => "a text has one matrix, in one DATA or CHARACTERS block",
        "ASSUMPTIONS" => "ASSUMPTIONS stands once, behind the matrix",
        _ => {
            "take this block out: TAXA, DATA, CHARACTERS and ASSUMPTIONS are read, TREES is \
            passed over, and there are no others"
        }
    }
}

fn command(word: &str) -> &'static str {
    match word {
        "OPTIONS" => "write `OPTIONS DEFTYPE=ORD;` or `OPTIONS DEFTYPE=UNORD;`, once",
        "DIMENSIONS" | "FORMAT" | "TAXLABELS" | "CHARLABELS" | "STATELABELS"
        | "CHARSTATELABELS" | "MATRIX" | "TYPESET" => {
            "it stands once in its block; DIMENSIONS, FORMAT and labels stand before MATRIX"
        }
        _ => "take this command out: it is not read",
    }
}

fn absent(word: &str) -> &'static str {
    match word {
        "MATRIX" => "put `DIMENSIONS NTAX=4 NCHAR=10;`, with your numbers, before MATRIX",
        "DIMENSIONS" => "NTAX is missing",
        "TAXA" => "the block needs `DIMENSIONS NTAX=..;` and `TAXLABELS ..;`",
        "#NEXUS" => "a DATA or CHARACTERS block with a MATRIX is missing",
        _ => "the block needs a MATRIX",
    }
}

fn count(word: &str) -> &'static str {
    match word {
        "MATRIX" | "TAXA" => "is NTAX, or NCHAR, as many as there are?",
        "CHARLABELS" => "CHARLABELS needs as many labels as NCHAR says",
        "TYPESET" => "a VECTOR needs as many types as NCHAR says",
        _ => "NTAX rows of NCHAR cells end before this; is one of these numbers too low?",
    }
}

fn option(word: &str) -> &'static str {
    match word {
        "DATATYPE" => "DATATYPE is STANDARD or DNA; it is given once",
        "MATCHCHAR" | "EQUATE" | "TRANSPOSE" | "ITEMS" | "STATESFORMAT" | "TOKENS" => {
            "write the cells out, and take this option out: it is not read"
        }
        _ => "DATATYPE, RESPECTCASE, INTERLEAVE, SYMBOLS=\"..\", MISSING and GAP are read",
    }
}

/// Where rows are not interleaved, the first word of a line is most likely a name, which is read as
/// cells because some are missing before it. Else a gap that nobody declared is likely; else the
/// symbols are not those of the cells.
fn symbol(seen: &Seen<'_>) -> &'static str {
    if seen.leads && !seen.has("INTERLEAVE") {
        "is this a name? Then the row before it has too few cells: NCHAR says how many"
    } else if seen.word.contains('-') && !seen.has("GAP") && !seen.has("DNA") {
        "is `-` a gap? Then write `FORMAT GAP=-`"
    } else if seen.has("DNA") {
        "the symbols of DNA are ACGT, the IUPAC codes, and those of MISSING and GAP"
    } else {
        "declare each symbol: `FORMAT SYMBOLS=\"012\" MISSING=? GAP=-`"
    }
}

/// What bytes that are no record may be. What is wrong within one is not looked for.
fn no_record(seen: &Seen<'_>) -> Option<&'static str> {
    let start = seen.text.trim_ascii_start();
    let first = start.get(..6).unwrap_or_default();
    if first.eq_ignore_ascii_case(b"#NEXUS") {
        Some("this looks like NEXUS; `nexus read` makes a record of it")
    } else if !seen.text.starts_with(b"datatype=") {
        Some("a record begins with `datatype=`; `nexus read` makes one of a NEXUS file")
    } else if seen.text.windows(2).any(|pair| pair == b"\r\n") {
        Some("the lines of a record end in LF, and some of these in CR LF")
    } else if !seen.text.ends_with(b"\n") {
        Some("the last line of a record ends in LF too")
    } else {
        None
    }
}

#[cfg(test)]
mod tests {
    use super::*;

    fn said(number: u32, text: &[u8], word: &str) -> String {
        let seen = Seen {
            number,
            text,
            word,
            leads: false,
        };
        hint(&seen).unwrap_or_default()
    }

    #[test]
    fn every_number_that_a_text_can_have_has_a_hint() {
        let none: Vec<u32> = (1..=33)
            .filter(|n| said(*n, b"x", "x").is_empty())
            .collect();
        // Memory is not a text's fault, and names are looked for where the lookup is.
        assert_eq!(none, [2, 30, 33]);
    }

    #[test]
    fn bytes_that_are_not_utf_8() {
        let hint = said(3, b"a\r\nb\nc\rd\xe9", "");
        assert!(
            hint.starts_with("the byte 0xE9 on line 4 is the first"),
            "{hint}"
        );
        assert!(said(3, b"\xff\xfea\0", "").contains("UTF-16"));
    }

    #[test]
    fn what_else_a_text_may_be() {
        assert!(said(6, b">a\nACGT\n", ">").contains("FASTA"));
        assert!(said(6, b" 4 10\n", "4").contains("PHYLIP"));
        assert!(said(6, b"<?xml", "<").contains("XML"));
        assert!(said(6, b"datatype=DNA\n", "datatype").contains("`nexus write`"));
        assert!(said(6, b" \n", "").contains("empty"));
        assert!(said(6, b"NEXUS\n", "NEXUS").contains("#NEXUS"));
        assert!(said(31, b"\n#nexus begin data;", "").contains("looks like NEXUS"));
        assert!(said(31, b"#nex", "").contains("begins with `datatype=`"));
        assert!(said(31, b"datatype=DNA\r\n", "").contains("CR LF"));
        assert!(said(31, b"datatype=DNA", "").contains("ends in LF"));
        assert!(said(31, b"datatype=DNA\n", "").is_empty());
    }

    #[test]
    fn a_name_that_is_read_as_cells() {
        let said = |text: &[u8]| {
            let seen = Seen {
                number: 22,
                text,
                word: "Ursus",
                leads: true,
            };
            hint(&seen).unwrap_or_default()
        };
        assert!(said(b"MATRIX\na 0\nUrsus 01;").contains("is this a name?"));
        assert!(said(b"FORMAT Interleave; MATRIX\na 0\nUrsus 01;").contains("SYMBOLS"));
    }

    #[test]
    fn a_gap_that_nobody_declared() {
        assert!(said(22, b"MATRIX a 0-1;", "0-1").contains("GAP=-"));
        assert!(said(22, b"FORMAT gap=- ; MATRIX a 0-2;", "0-2").contains("SYMBOLS"));
        assert!(said(22, b"FORMAT DATATYPE=DNA; MATRIX a A-X;", "A-X").contains("IUPAC"));
    }
}
