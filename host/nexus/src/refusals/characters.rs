//! Refusals of labels and types.

use super::Entry;
use super::example::Example;

/// A matrix of three characters, and an ASSUMPTIONS block with this command.
macro_rules! assumed {
    ($command:literal) => {
        lines![
            "#NEXUS",
            "BEGIN DATA;",
            "DIMENSIONS NTAX=1 NCHAR=3;",
            "MATRIX a 010;",
            "END;",
            "BEGIN ASSUMPTIONS;",
            $command,
            "END;"
        ]
    };
}

/// A matrix of two characters with this command before it.
macro_rules! labelled {
    ($command:literal) => {
        data!["DIMENSIONS NTAX=1 NCHAR=2;", $command, "MATRIX a 01;"]
    };
}

pub(super) static ENTRIES: [Entry; 4] = [
    Entry {
        number: 26,
        title: "label entry",
        sentence: "An entry of labels is empty, has a wrong number, lacks its `/`, labels a \
            character again, or has more states than there are symbols.",
        meaning: "An entry of STATELABELS is a character's number and its states' labels; one of \
            CHARSTATELABELS a number, a label, a `/` and states' labels, of which all but the \
            number may be absent. Entries are parted by commas, and a comma may follow the last. \
            The number is from 1 to NCHAR. A character gets its label once and its states' labels \
            once, and no more of these than there are symbols. Labels are judged after the matrix \
            was read.",
        place: "The entry's number; for an empty entry the command; for a word in place of `/` \
            that word; for a second label in CHARLABELS that label.",
        mend: "Give each character one entry, with a number that it has. A label of several words \
            is written in single quotes.",
        refused: Example::text(labelled!["CHARSTATELABELS 1 wing, 3 leg;"]),
        at: (4, 25),
        mended: Example::text(labelled!["CHARSTATELABELS 1 wing, 2 leg;"]),
    },
    Entry {
        number: 27,
        title: "type word, form of a TYPESET, or a character typed twice",
        sentence: "A character's type or the form of TYPESET is not right, or a character is typed \
            twice.",
        meaning: "The types are ORD and UNORD. A TYPESET has an optional `*`, a name, \
            `(STANDARD)`, `(VECTOR)` or nothing, a `=`, and the types: of a VECTOR one for each \
            character, or else lists, each a type, a `:` and characters, parted by commas. No \
            character stands in two lists or twice in one, and no comma behind the last list.",
        place: "What stands in place of a type or of the form's name; the type of the list that \
            has a character again, or lacks its `:`; otherwise the word TYPESET.",
        mend: "Write ORD or UNORD. Take out a comma behind the last list, and give each character \
            one type.",
        refused: Example::text(assumed!["TYPESET * t = IRREV: 1 2;"]),
        at: (7, 15),
        mended: Example::text(assumed!["TYPESET * t = ORD: 1 2;"]),
    },
    Entry {
        number: 28,
        title: "character list",
        sentence: "A list of characters is empty, or has a number, a range or a stride that is \
            none.",
        meaning: "A list has numbers from 1 to NCHAR, `.` for the last, ALL, and ranges such as \
            `2-4` or `2-.`, each with a stride behind a `\\` if one is wanted. A range does not go \
            down, ALL is no end of one, and a stride is at least 1. Numbers in quotes, but for a \
            stride, and names of characters or sets are not taken. The list is not empty.",
        place: "What is no character or no stride; for a range that goes down or lacks its end or \
            its stride the range's first word; for an empty list its type.",
        mend: "Write the numbers of the characters.",
        refused: Example::text(assumed!["TYPESET * t = ORD: 3-1;"]),
        at: (7, 20),
        mended: Example::text(assumed!["TYPESET * t = ORD: 1-3;"]),
    },
    Entry {
        number: 29,
        title: "ordered DNA",
        sentence: "Characters of DNA cannot be ordered.",
        meaning: "Every character of DNA data is UNORD when all was read. This is judged last of \
            all faults of a text; a DEFTYPE=ORD is taken if a TYPESET makes every character UNORD.",
        place: "The word #NEXUS.",
        mend: "Take out the OPTIONS or the TYPESET, or give the data as STANDARD.",
        refused: Example::text(lines![
            "#NEXUS",
            "BEGIN DATA;",
            "DIMENSIONS NTAX=1 NCHAR=3;",
            "FORMAT DATATYPE=DNA;",
            "MATRIX a ACG;",
            "END;",
            "BEGIN ASSUMPTIONS;",
            "OPTIONS DEFTYPE=ORD;",
            "END;"
        ]),
        at: (1, 1),
        mended: Example::text(lines![
            "#NEXUS",
            "BEGIN DATA;",
            "DIMENSIONS NTAX=1 NCHAR=3;",
            "FORMAT DATATYPE=DNA;",
            "MATRIX a ACG;",
            "END;",
            "BEGIN ASSUMPTIONS;",
            "OPTIONS DEFTYPE=UNORD;",
            "END;"
        ]),
    },
];
