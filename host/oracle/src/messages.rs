//! Each message of the reader and its number: one table with a row for each place in the four
//! files of `nexus` that makes an error. Rows with the same message have the same number.

/// One place in the sources that makes an error.
#[derive(Debug)]
pub struct Row {
    /// File and line of the call.
    pub site: &'static str,
    /// The message as the source spells it, with the holes of `format!`.
    pub message: &'static str,
    /// The refusal's number.
    pub number: u32,
    /// What stands at the refusal's line and column.
    pub place: &'static str,
    /// The words of document 01 that decide the number.
    pub words: &'static str,
}

/// What `Token::label` says. It is raised through the seven calls of `label()`.
pub const NO_NAME: &str = "expected a name; quote names containing punctuation";

const fn row(
    site: &'static str,
    message: &'static str,
    number: u32,
    place: &'static str,
    words: &'static str,
) -> Row {
    Row {
        site,
        message,
        number,
        place,
        words,
    }
}

const NOT_A_NAME: &str = "17 not a name";
const TWICE: &str = "18 taxon twice";
const FORMAT_21: &str = "the word FORMAT";
const MATRIX: &str = "the word MATRIX";
const TYPESET: &str = "the word TYPESET";
const BLOCK: &str = "the block's name";
const HEAD: &str = "the command's first token";
const TYPE_FORM: &str = "27 type word or TYPESET form";
const LIST: &str = "28 character list";

#[rustfmt::skip]
pub const TABLE: &[Row] = &[
    row("lexer.rs:39", NO_NAME, 17, "the token that is no name", "`Token` and its `label`: 17"),
    row("lexer.rs:81", "unterminated quoted text", 4, "the opening quote", "4 open quote, ... at its opening mark"),
    row("lexer.rs:167", "unterminated comment", 5, "the outermost open `[`", "5 open comment, each at its opening mark (of nested comments the outermost)"),
    row("mod.rs:42", "expected #NEXUS", 6, "1,1", "6 no #NEXUS ... Empty text: 6 at 1,1"),
    row("mod.rs:48", "expected #NEXUS", 6, "the first token", "6 no #NEXUS"),
    row("mod.rs:57", "expected BEGIN followed by a block name", 11, HEAD, "11 not BEGIN and a name"),
    row("mod.rs:62", "only one TAXA block, before the matrix, is supported", 12, BLOCK, "12 block repeated, misplaced"),
    row("mod.rs:67", "only one DATA or CHARACTERS block is supported", 12, BLOCK, "12 block repeated"),
    row("mod.rs:72", "only one ASSUMPTIONS block is supported", 12, BLOCK, "12 block repeated"),
    row("mod.rs:76", "ASSUMPTIONS must follow the matrix", 12, BLOCK, "12 block ... misplaced"),
    row("mod.rs:87", "unsupported block {}; model directives and partitions cannot be ignored", 12, BLOCK, "12 block ... unsupported"),
    row("mod.rs:93", "no DATA or CHARACTERS matrix found", 14, "the word #NEXUS", "14 a needed ... matrix absent"),
    row("mod.rs:99", "ordered characters are not supported for DNA JC69", 29, "the word #NEXUS", "29 ordered DNA"),
    row("mod.rs:130", "empty command", 7, "the `;`", "7 empty command"),
    row("mod.rs:135", "unterminated command; expected ';'", 8, HEAD, "8 no `;`"),
    row("mod.rs:140", "unterminated block; expected END;", 9, BLOCK, "9 no END"),
    row("mod.rs:151", "unexpected arguments after END", 10, "the word END or ENDBLOCK", "10 words after END"),
    row("mod.rs:161", NO_NAME, 17, "the token that is no name", NOT_A_NAME),
    row("mod.rs:163", "duplicate taxon {name:?}", 18, "the later name", TWICE),
    row("mod.rs:192", "unsupported DIMENSIONS option", 15, "the option", "15 DIMENSIONS option unsupported, repeated"),
    row("mod.rs:195", "duplicate dimension", 15, "the option", "15 DIMENSIONS option ... repeated"),
    row("mod.rs:203", "dimension must be a positive integer", 15, "the value", "15 DIMENSIONS option ... value not a positive 64-bit number"),
    row("mod.rs:211", "expected '=' and a value", 19, "the option", "19 `=` or its value absent, TYPESET aside"),
    row("mod.rs:215", "missing value after '='", 19, "the option", "19 `=` or its value absent, TYPESET aside"),
    row("mod.rs:232", "TAXA dimensions support only NTAX", 15, "the word DIMENSIONS", "15 DIMENSIONS option unsupported"),
    row("mod.rs:236", "TAXA requires NTAX", 14, "the word DIMENSIONS", "14 a needed ... dimension ... absent"),
    row("mod.rs:241", "unsupported, repeated or misplaced TAXA command", 13, HEAD, "13 command repeated, misplaced, unsupported"),
    row("mod.rs:244", "TAXA requires DIMENSIONS and TAXLABELS", 14, BLOCK, "14 a needed command ... absent"),
    row("mod.rs:246", "TAXLABELS count does not match NTAX", 16, BLOCK, "16 taxa ... differing in count from what was declared"),
    row("mod.rs:295", "duplicate FORMAT option", 20, "the option", "20 FORMAT option or value"),
    row("mod.rs:304", "only DATATYPE=STANDARD or DNA is supported", 20, "the option", "20 FORMAT option or value"),
    row("mod.rs:318", "INTERLEAVE expects YES or NO", 20, "the value", "20 FORMAT option or value"),
    row("mod.rs:324", "SYMBOLS requires double quotes", 20, "the value", "20 FORMAT option or value"),
    row("mod.rs:334", "expected one ASCII missing or gap symbol", 20, "the value", "20 FORMAT option or value"),
    row("mod.rs:341", "unsupported FORMAT option {}", 20, "the option", "20 FORMAT option or value"),
    row("mod.rs:348", "DNA uses case-insensitive A/C/G/T states; omit RESPECTCASE and custom SYMBOLS", 21, FORMAT_21, "21 symbols ... not allowed for DNA"),
    row("mod.rs:362", "DNA gap symbols cannot replace IUPAC codes; only N may also be declared missing", 21, FORMAT_21, "21 symbols ... not allowed for DNA"),
    row("mod.rs:369", "SYMBOLS must contain at least two valid single-character ASCII states", 21, FORMAT_21, "21 symbols too few, invalid"),
    row("mod.rs:376", "state, missing and gap symbols must be distinct", 21, FORMAT_21, "21 symbols ... clashing"),
    row("mod.rs:380", "missing and gap symbols must be distinct", 21, FORMAT_21, "21 symbols ... clashing"),
    row("mod.rs:404", "commands after MATRIX are unsupported", 13, HEAD, "13 command ... misplaced"),
    row("mod.rs:407", "duplicate command", 13, HEAD, "13 command repeated"),
    row("mod.rs:415", "taxa have already been declared", 13, "the word TAXLABELS", "13 command repeated, misplaced"),
    row("mod.rs:423", "DIMENSIONS must precede MATRIX", 14, MATRIX, "14 a needed command ... absent"),
    row("mod.rs:426", "NCHAR is required", 14, MATRIX, "14 a needed ... dimension ... absent"),
    row("mod.rs:432", "a positive NTAX or a nonempty taxon declaration is required", 14, MATRIX, "14 a needed ... dimension ... absent"),
    row("mod.rs:435", "TAXLABELS count does not match NTAX", 16, MATRIX, "16 taxa ... differing in count from what was declared"),
    row("mod.rs:438", "NEWTAXA requires NTAX", 14, MATRIX, "14 a needed ... dimension ... absent"),
    row("mod.rs:448", "declared taxon {name:?} is absent from MATRIX", 25, MATRIX, "25 declared taxon absent"),
    row("mod.rs:470", "unsupported matrix command {}", 13, HEAD, "13 command ... unsupported"),
    row("mod.rs:473", "missing MATRIX command", 14, BLOCK, "14 a needed command ... absent"),
    row("mod.rs:483", "CHARLABELS count must match NCHAR", 16, "the word CHARLABELS", "16 ... CHARLABELS ... differing in count from what was declared"),
    row("mod.rs:487", "character label already defined", 26, "the label", "26 label entry"),
    row("mod.rs:489", NO_NAME, 17, "the token that is no name", NOT_A_NAME),
    row("mod.rs:503", "empty state-label entry", 26, "the word STATELABELS or CHARSTATELABELS", "26 label entry"),
    row("mod.rs:509", "character label index is outside 1..NCHAR", 26, "the entry's first token", "26 label entry"),
    row("mod.rs:515", "character label already defined", 26, "the entry's first token", "26 label entry"),
    row("mod.rs:517", NO_NAME, 17, "the token that is no name", NOT_A_NAME),
    row("mod.rs:524", "expected '/' before state labels", 26, "the token in the place of `/`", "26 label entry"),
    row("mod.rs:529", "state labels already defined", 26, "the entry's first token", "26 label entry"),
    row("mod.rs:533", NO_NAME, 17, "the token that is no name", NOT_A_NAME),
    row("mod.rs:536", "more state labels than declared symbols", 26, "the entry's first token", "26 label entry"),
    row("matrix.rs:37", "extra data after NTAX complete rows", 16, "the first token after the last row", "16 ... data after the last row"),
    row("matrix.rs:40", NO_NAME, 17, "the token that is no name", NOT_A_NAME),
    row("matrix.rs:42", "duplicate taxon {name:?}", 18, "the later name", TWICE),
    row("matrix.rs:48", "incomplete row for {name:?}: expected {nchar} characters, found {}", 24, "the row's name", "24 row short (sequential)"),
    row("matrix.rs:60", "row for {name:?} exceeds NCHAR={nchar}", 24, "the word that goes beyond NCHAR", "24 row ... too long"),
    row("matrix.rs:67", "expected {ntax} taxa, found {}", 16, MATRIX, "16 taxa ... differing in count from what was declared"),
    row("matrix.rs:89", "incomplete interleaved page; expected NTAX labeled rows", 16, "the page's first token", "16 ... lines of a page"),
    row("matrix.rs:95", NO_NAME, 17, "the token that is no name", NOT_A_NAME),
    row("matrix.rs:98", "duplicate taxon {name:?}", 18, "the later name", TWICE),
    row("matrix.rs:103", "interleaved pages must repeat taxon labels in order; expected {:?}", 24, "the name", "24 ... page name out of order"),
    row("matrix.rs:115", "empty interleaved row", 24, "the row's name", "24 row ... empty"),
    row("matrix.rs:118", "interleaved rows must have equal widths within a page", 24, "the row's name", "24 row ... of another width"),
    row("matrix.rs:123", "row for {name:?} exceeds NCHAR={nchar}", 24, "the row's name", "24 row ... too long"),
    row("matrix.rs:128", "incomplete interleaved matrix; rows must match NTAX and NCHAR", 16, MATRIX, "16 ... final interleaved sizes"),
    row("matrix.rs:142", "unterminated state set", 23, "the opening bracket", "23 state set open"),
    row("matrix.rs:149", "state sets may contain only declared states", 23, "the token in the set", "23 state set ... holding a non-state"),
    row("matrix.rs:155", "empty state set", 23, "the opening bracket", "23 state set ... empty"),
    row("matrix.rs:175", "expected a state symbol or a well-formed state set", 22, "the token", "22 cell symbol"),
    row("matrix.rs:187", "unsupported DNA symbol {symbol:?}; use A/C/G/T or IUPAC ambiguity codes", 22, "the word that holds the symbol", "22 cell symbol"),
    row("matrix.rs:194", "undeclared state symbol {symbol:?}", 22, "the word or `+` that holds the symbol", "22 cell symbol"),
    row("assumptions.rs:22", "ASSUMPTIONS OPTIONS supports only DEFTYPE=ORD or DEFTYPE=UNORD", 13, "the word OPTIONS", "13 ... OPTIONS of another form"),
    row("assumptions.rs:30", "unsupported or repeated ASSUMPTIONS command; only OPTIONS DEFTYPE and one TYPESET are supported", 13, HEAD, "13 command repeated, ... unsupported"),
    row("assumptions.rs:50", "only ORD and UNORD character types are supported", 27, "the token in the place of a type", TYPE_FORM),
    row("assumptions.rs:65", "TYPESET requires a name", 27, TYPESET, TYPE_FORM),
    row("assumptions.rs:66", NO_NAME, 17, "the token that is no name", NOT_A_NAME),
    row("assumptions.rs:72", "missing TYPESET format", 27, TYPESET, TYPE_FORM),
    row("assumptions.rs:76", "TYPESET format must be STANDARD or VECTOR", 27, "the token after `(`", TYPE_FORM),
    row("assumptions.rs:81", "TYPESET requires '=' followed by character types", 27, TYPESET, TYPE_FORM),
    row("assumptions.rs:85", "empty TYPESET", 27, TYPESET, TYPE_FORM),
    row("assumptions.rs:89", "VECTOR TYPESET must specify one type per character", 16, TYPESET, "16 ... VECTOR types differing in count from what was declared"),
    row("assumptions.rs:100", "missing type after comma", 27, TYPESET, "`ORD: 1,` in TYPESET is 27"),
    row("assumptions.rs:103", "expected ':' after character type", 27, "the type word", TYPE_FORM),
    row("assumptions.rs:112", "character {} occurs more than once in TYPESET", 27, "the type word", "27 ... a character typed twice"),
    row("assumptions.rs:128", "character list is empty", 28, "the type word", LIST),
    row("assumptions.rs:149", "TYPESET character lists require numeric indices", 28, "the quoted token", LIST),
    row("assumptions.rs:159", "character index must be between 1 and NCHAR; named sets are not supported", 28, "the token that holds the index", LIST),
    row("assumptions.rs:174", "ALL cannot be a range endpoint", 28, "the word ALL", LIST),
    row("assumptions.rs:178", "missing range endpoint", 28, "the range's first token", LIST),
    row("assumptions.rs:183", "character range must be increasing", 28, "the range's first token", LIST),
    row("assumptions.rs:189", "missing range stride", 28, "the range's first token", LIST),
    row("assumptions.rs:194", "range stride must be a positive integer", 28, "the stride", LIST),
];

/// The number of a message, from the table alone.
pub fn number(message: &str) -> Option<u32> {
    row_of(message).map(|row| row.number)
}

/// The first row whose message this is. A sequential row's taxon and character before the
/// message are left out.
pub fn row_of(message: &str) -> Option<&'static Row> {
    let message = without_cell(message).unwrap_or(message);
    TABLE.iter().find(|row| matches(row.message, message))
}

/// The message after `taxon {name:?}, character {n}: `, which the sequential reader puts before
/// what is wrong with a cell.
fn without_cell(message: &str) -> Option<&str> {
    let rest = message.strip_prefix("taxon ")?;
    let rest = rest[debugged(rest)?..].strip_prefix(", character ")?;
    let digits = rest.bytes().take_while(u8::is_ascii_digit).count();
    (digits > 0).then_some(())?;
    rest[digits..].strip_prefix(": ")
}

/// Whether a message comes from this pattern. A hole `{..:?}` holds one string or character as
/// `Debug` writes it, a hole with another name a number, and `{}` any text.
pub fn matches(pattern: &str, message: &str) -> bool {
    let Some(open) = pattern.find('{') else {
        return pattern == message;
    };
    let Some(message) = message.strip_prefix(&pattern[..open]) else {
        return false;
    };
    let close = open + pattern[open..].find('}').expect("a hole is closed");
    let (hole, rest) = (&pattern[open + 1..close], &pattern[close + 1..]);
    if hole.ends_with(":?") {
        debugged(message).is_some_and(|length| matches(rest, &message[length..]))
    } else if hole.is_empty() {
        let ends = message.char_indices().map(|(at, _)| at);
        ends.chain([message.len()])
            .any(|end| matches(rest, &message[end..]))
    } else {
        let digits = message.bytes().take_while(u8::is_ascii_digit).count();
        digits > 0 && matches(rest, &message[digits..])
    }
}

/// The length of the string or character that `Debug` wrote at the beginning of the text, with
/// its quotes. Inside, a backslash stands before each quote of the same kind.
fn debugged(text: &str) -> Option<usize> {
    let quote = text.chars().next().filter(|c| "\"'".contains(*c))?;
    let mut escaped = false;
    for (at, c) in text.char_indices().skip(1) {
        if c == quote && !escaped {
            return Some(at + 1);
        }
        escaped = c == '\\' && !escaped;
    }
    None
}

/// The table as docs/MESSAGES.md has it.
pub fn markdown() -> String {
    let mut out = String::from(
        "| message | call site | number | place | document 01 |\n|---|---|---|---|---|\n",
    );
    for row in TABLE {
        out.push_str(&format!(
            "| `{}` | {} | {} | {} | {} |\n",
            row.message, row.site, row.number, row.place, row.words
        ));
    }
    out
}
