//! Refusals of a text as a whole: its length, its bytes, its open marks and its first word.

use super::example::{Call, Example};
use super::{Entry, NOWHERE};

/// The rest of a text behind its first line.
const DATA: &str = lines![
    "]",
    "BEGIN DATA;",
    "DIMENSIONS NTAX=1 NCHAR=2;",
    "MATRIX a 01;",
    "END;"
];

/// A text with a comment so long that the text has so many bytes.
const fn commented(length: usize) -> Example {
    let start = "#NEXUS\n[";
    Example::text(start).filled(b'x', length - start.len() - DATA.len(), DATA)
}

/// A text that is read, for examples about memory.
pub(super) const SMALL: &str = data!["DIMENSIONS NTAX=1 NCHAR=2;", "MATRIX a 01;"];

/// A call with work memory of so many numbers.
const fn worked(work: usize) -> Example {
    let buffer = 1_000;
    Example::new(Call::ReadInto { work, buffer }, SMALL)
}

pub(super) static ENTRIES: [Entry; 6] = [
    Entry {
        number: 1,
        title: "the text is too long",
        sentence: "The text is longer than 1,048,576 bytes.",
        meaning: "A text has at most 1,048,576 bytes. This is judged first, before anything in the \
            text is looked at. The program of crates/nexus, which reads standard input, takes \
            1,024 bytes and no more.",
        place: NOWHERE,
        mend: "Take out what means nothing to the reader, such as long comments and TREES blocks, \
            or part the matrix into several texts.",
        refused: commented(1_048_577),
        at: (0, 0),
        mended: commented(1_048_576),
    },
    Entry {
        number: 2,
        title: "work memory is short",
        sentence: "The work memory is shorter than the text needs.",
        meaning: "The read call works in memory that its caller lends: for a text of n bytes 4n + \
            64 numbers of 32 bits, or more. Where there are fewer, nothing of the text is looked \
            at. Only a host that lends the memory itself can meet this refusal.",
        place: NOWHERE,
        mend: "Lend 4n + 64 numbers or more.",
        refused: worked(4 * SMALL.len() + 63),
        at: (0, 0),
        mended: worked(4 * SMALL.len() + 64),
    },
    Entry {
        number: 3,
        title: "the text is not UTF-8",
        sentence: "The text is not valid UTF-8.",
        meaning: "A text is Unicode in UTF-8, of which ASCII is a part. In older encodings, such \
            as Latin-1, a letter beyond ASCII is a byte that is no UTF-8, and so are the two bytes \
            that mark a text as UTF-16. The byte order mark of UTF-8 is taken.",
        place: NOWHERE,
        mend: "Save the text as UTF-8, or convert it, for instance by `iconv -f LATIN1 -t UTF-8`.",
        refused: Example::of_bytes(
            Call::Read,
            b"#NEXUS\nBEGIN DATA;\nDIMENSIONS NTAX=1 NCHAR=2;\nMATRIX Andr\xe9 01;\nEND;\n",
        ),
        at: (0, 0),
        mended: Example::text(data!["DIMENSIONS NTAX=1 NCHAR=2;", "MATRIX André 01;"]),
    },
    Entry {
        number: 4,
        title: "open quote",
        sentence: "This quote is opened and never closed.",
        meaning: "Text in quotes goes on to the next quote of the same kind, over lines and \
            brackets. In single quotes two of them are one quote of the text; in double quotes \
            there is no such rule. The whole text is cut into words first, so an open quote is \
            refused before anything else in the text is judged.",
        place: "The quote that is opened and not closed. The fault may be earlier: where a quote \
            too many or too few stands, every later one changes its part.",
        mend: "Close the quote, or write a quote inside single quotes twice.",
        refused: Example::text(data!["DIMENSIONS NTAX=1 NCHAR=2;", "MATRIX 'O'Brien' 01;"]),
        at: (4, 16),
        mended: Example::text(data!["DIMENSIONS NTAX=1 NCHAR=2;", "MATRIX 'O''Brien' 01;"]),
    },
    Entry {
        number: 5,
        title: "open comment",
        sentence: "This comment is opened and never closed.",
        meaning: "A comment stands in square brackets. Comments may hold comments, so each `[` \
            needs a `]` of its own, and quotes mean nothing inside. An open comment is refused \
            before anything else in the text is judged.",
        place: "The `[` that is not closed; of several, one in another, the outermost.",
        mend: "Close the comment, or take out the `[`. A `[` that belongs to a name is written in \
            single quotes.",
        refused: Example::text(data![
            "[two characters [of five]",
            "DIMENSIONS NTAX=1 NCHAR=2;",
            "MATRIX a 01;"
        ]),
        at: (3, 1),
        mended: Example::text(data![
            "[two characters [of five]]",
            "DIMENSIONS NTAX=1 NCHAR=2;",
            "MATRIX a 01;"
        ]),
    },
    Entry {
        number: 6,
        title: "no #NEXUS",
        sentence: "The text does not begin with #NEXUS.",
        meaning: "The first word of a text is #NEXUS, in any case of its letters. Only blanks, \
            newlines, comments and a byte order mark may stand before it.",
        place: "The first word; line 1, column 1 if there is none.",
        mend: "Write #NEXUS as the first line. If the text is of another format, such as FASTA or \
            PHYLIP, convert it.",
        refused: Example::text(lines![
            "BEGIN DATA;",
            "DIMENSIONS NTAX=1 NCHAR=2;",
            "MATRIX a 01;",
            "END;"
        ]),
        at: (1, 1),
        mended: Example::text(SMALL),
    },
];
