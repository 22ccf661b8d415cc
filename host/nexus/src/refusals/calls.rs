//! Refusals of the calls: buffers, records and names.

use super::example::{Call, Example};
use super::whole::SMALL;
use super::{Entry, NOWHERE};

/// The record of the text for examples about memory.
const SMALL_RECORD: &str = lines![
    "datatype=STANDARD",
    "taxa=1",
    "characters=2",
    "symbols=01",
    "name=a",
    "cells=0 1",
    "character=1",
    "label=",
    "order=UNORD",
    "states=0",
    "character=2",
    "label=",
    "order=UNORD",
    "states=0"
];

/// A record of two taxa and one character, behind its first two lines.
macro_rules! two_taxa {
    ($count:literal) => {
        lines![
            "datatype=STANDARD",
            $count,
            "characters=1",
            "symbols=01",
            "name=a b",
            "cells=0",
            "name=c",
            "cells=1",
            "character=1",
            "label=",
            "order=UNORD",
            "states=0"
        ]
    };
}

/// A text that is read with a buffer of so many bytes.
const fn buffered(buffer: usize) -> Example {
    let work = 4 * SMALL.len() + 64;
    Example::new(Call::ReadInto { work, buffer }, SMALL)
}

/// A record to be written, whose taxon has a name of so many letters.
const fn named(length: usize) -> Example {
    let start = "datatype=STANDARD\ntaxa=1\ncharacters=1\nsymbols=01\nname=";
    let end = "\ncells=0\ncharacter=1\nlabel=\norder=UNORD\nstates=0\n";
    Example::new(Call::Write, start).filled(b'x', length, end)
}

/// A name that is looked up in a record of two taxa.
const fn sought(name: &'static str) -> Example {
    Example::new(Call::Lookup(name), two_taxa!["taxa=2"])
}

pub(super) static ENTRIES: [Entry; 4] = [
    Entry {
        number: 30,
        title: "the result is longer than its buffer",
        sentence: "The result is longer than the buffer that was lent for it.",
        meaning: "The record of a text, or the written form of a record, goes into a buffer that \
            the caller lends. A buffer of just its length is enough. This is judged last: the text \
            or the record has no other fault. The buffer is left as it was. Only a host that lends \
            the buffer itself can meet this refusal.",
        place: NOWHERE,
        mend: "Lend a longer buffer. A record of a text of n bytes has at most 64n + 256 bytes, \
            and a written form at most 1,048,576.",
        refused: buffered(SMALL_RECORD.len() - 1),
        at: (0, 0),
        mended: buffered(SMALL_RECORD.len()),
    },
    Entry {
        number: 31,
        title: "not a record",
        sentence: "These bytes are not the record of any text.",
        meaning: "A record to be written, or looked into, is one that the reading of some text can \
            have given, byte for byte: its lines in their order, each ended by LF; numbers without \
            leading zeros; as many taxa, cells and states as its counts say; indices below the \
            count of symbols, rising in a set; names as texts have them, all different. A count \
            above 1,048,576 is refused too.",
        place: NOWHERE,
        mend: "Read the text again. Records are made by reading, and not to be changed by hand.",
        refused: Example::new(Call::Write, two_taxa!["taxa=3"]),
        at: (0, 0),
        mended: Example::new(Call::Write, two_taxa!["taxa=2"]),
    },
    Entry {
        number: 32,
        title: "the written form is too long",
        sentence: "The written form would be longer than 1,048,576 bytes.",
        meaning: "The written form of a record is a text that has this record. It may be longer \
            than the text that was read, since names stand in quotes, sets are written out and \
            every character's type is named. A form that could not be read again is not written.",
        place: NOWHERE,
        mend: "Part the matrix into several texts, and write each of their records.",
        refused: named(1_048_576),
        at: (0, 0),
        mended: named(1_000),
    },
    Entry {
        number: 33,
        title: "no taxon has the name",
        sentence: "No taxon of the record has this name.",
        meaning: "A taxon is looked up by its name as it was read: a `_` of the text is a blank in \
            it, quotes are no part of it, and it is not escaped as in the record. The case of \
            ASCII letters does not matter.",
        place: NOWHERE,
        mend: "Give the name with blanks for `_`, without quotes, and whole.",
        refused: sought("a_b"),
        at: (0, 0),
        mended: sought("a b"),
    },
];
