//! Refusals of dimensions, counts, names and formats.

use super::Entry;
use super::example::Example;
use super::whole::SMALL;

pub(super) static ENTRIES: [Entry; 7] = [
    Entry {
        number: 15,
        title: "DIMENSIONS option or value",
        sentence: "An option of DIMENSIONS is not supported or repeated, or its value is not a \
            positive number.",
        meaning: "DIMENSIONS takes NTAX, NCHAR and NEWTAXA, each once, and in a TAXA block only \
            NTAX. A value is a number from 1 to 2^64 - 1. A sign before it makes it none, unless \
            it is a `+` in the same quotes.",
        place: "The option, or the value if that is at fault. For NCHAR or NEWTAXA in a TAXA block \
            the word DIMENSIONS.",
        mend: "Give each option once, with a number of at least 1.",
        refused: Example::text(data!["DIMENSIONS NTAX=0 NCHAR=2;", "MATRIX a 01;"]),
        at: (3, 17),
        mended: Example::text(SMALL),
    },
    Entry {
        number: 16,
        title: "a count differs from what was declared",
        sentence: "A count of taxa, rows, cells, labels or types differs from what was declared.",
        meaning: "These counts must agree: the taxa of TAXLABELS and the rows of the matrix with \
            NTAX, or with the declared taxa where NTAX is absent; the lines of an interleaved page \
            with the taxa; the cells of all pages together with NCHAR; the labels of CHARLABELS \
            and the types of a VECTOR with NCHAR. Behind the last row nothing may follow but the \
            `;`.",
        place: "The word MATRIX, CHARLABELS or TYPESET; for the names of a TAXA block the block's \
            name; for an incomplete page its first word; for data behind the last row the first \
            word of it.",
        mend: "Correct the number in DIMENSIONS, or add or take out rows, labels or types.",
        refused: Example::text(data![
            "DIMENSIONS NTAX=3 NCHAR=2;",
            "MATRIX",
            "a 01",
            "b 11;"
        ]),
        at: (4, 1),
        mended: Example::text(data![
            "DIMENSIONS NTAX=2 NCHAR=2;",
            "MATRIX",
            "a 01",
            "b 11;"
        ]),
    },
    Entry {
        number: 17,
        title: "not a name",
        sentence: "A name should stand here: a word, or text in single quotes.",
        meaning: "The name of a taxon or a TYPESET, or a label, is a plain word or text in single \
            quotes. It is neither empty nor all blank, and not in double quotes. These end a plain \
            word and are no part of it: blanks, quotes, `( ) { } ] / \\ , ; : = * < > ^ +` and the \
            backquote. Names are parted by blanks, not by commas.",
        place: "What stands in place of the name.",
        mend: "Write the name in single quotes, or take out the comma.",
        refused: Example::text(data![
            "DIMENSIONS NTAX=2 NCHAR=2;",
            "TAXLABELS a, b;",
            "MATRIX",
            "a 01",
            "b 11;"
        ]),
        at: (4, 12),
        mended: Example::text(data![
            "DIMENSIONS NTAX=2 NCHAR=2;",
            "TAXLABELS a b;",
            "MATRIX",
            "a 01",
            "b 11;"
        ]),
    },
    Entry {
        number: 18,
        title: "taxon twice",
        sentence: "A taxon has this name already.",
        meaning: "The names of taxa differ, in TAXLABELS and in the rows. The case of ASCII \
            letters makes no difference between two names, and a `_` is the same as a blank; \
            beyond ASCII case does matter.",
        place: "The second of the two names.",
        mend: "Rename one of the taxa. In rows that are not interleaved a row that is too long \
            seems to begin another taxon; see that each has NCHAR cells.",
        refused: Example::text(data![
            "DIMENSIONS NTAX=2 NCHAR=2;",
            "MATRIX",
            "a 01",
            "A 11;"
        ]),
        at: (6, 1),
        mended: Example::text(data![
            "DIMENSIONS NTAX=2 NCHAR=2;",
            "MATRIX",
            "a 01",
            "B 11;"
        ]),
    },
    Entry {
        number: 19,
        title: "`=` or its value is absent",
        sentence: "This option needs a `=` and a value.",
        meaning: "In DIMENSIONS the options NTAX and NCHAR have a `=` and a value, in FORMAT \
            DATATYPE, SYMBOLS, MISSING and GAP. A TYPESET without `=` is refused by 27, and an \
            OPTIONS without it by 13.",
        place: "The option.",
        mend: "Write a `=` and the value behind the option.",
        refused: Example::text(data![
            "DIMENSIONS NTAX=1 NCHAR=2;",
            "FORMAT DATATYPE STANDARD;",
            "MATRIX a 01;"
        ]),
        at: (4, 8),
        mended: Example::text(data![
            "DIMENSIONS NTAX=1 NCHAR=2;",
            "FORMAT DATATYPE=STANDARD;",
            "MATRIX a 01;"
        ]),
    },
    Entry {
        number: 20,
        title: "FORMAT option or value",
        sentence: "This option of FORMAT is not supported or repeated, or its value is none that \
            it takes.",
        meaning: "FORMAT takes each of these once: DATATYPE with STANDARD or DNA; SYMBOLS with the \
            symbols in double quotes; MISSING and GAP with one symbol each; INTERLEAVE, alone or \
            with YES or NO; RESPECTCASE, LABELS and NOTOKENS, which take no value. All others \
            could change what the matrix means, and are refused.",
        place: "The option, also for a wrong DATATYPE; the value for a wrong INTERLEAVE, SYMBOLS, \
            MISSING or GAP.",
        mend: "Take the option out, give it once, or give it a value that it takes.",
        refused: Example::text(data![
            "DIMENSIONS NTAX=1 NCHAR=2;",
            "FORMAT DATATYPE=STANDARD SYMBOLS=01;",
            "MATRIX a 01;"
        ]),
        at: (4, 34),
        mended: Example::text(data![
            "DIMENSIONS NTAX=1 NCHAR=2;",
            "FORMAT DATATYPE=STANDARD SYMBOLS=\"01\";",
            "MATRIX a 01;"
        ]),
    },
    Entry {
        number: 21,
        title: "symbols too few, invalid or clashing",
        sentence: "The symbols are too few, not valid, alike, or not allowed for DNA.",
        meaning: "STANDARD data has two or more symbols for states. Each is one of 74 characters: \
            ASCII 33 to 126 less `()[]{}/\\,;:=*'\"<>~^` and the backquote. No two of the symbols \
            for states, missing and gap are alike; their case matters only with RESPECTCASE. The \
            missing symbol is `?` unless MISSING gives another. DNA takes no RESPECTCASE, no \
            SYMBOLS but ACGT, and no code of a base as its gap or, N aside, as missing.",
        place: "The word FORMAT, after all its options were judged.",
        mend: "Give each symbol once, and another MISSING or GAP if one of them is among the \
            states. Write RESPECTCASE if `a` and `A` are two states.",
        refused: Example::text(data![
            "DIMENSIONS NTAX=1 NCHAR=2;",
            "FORMAT SYMBOLS=\"01?\";",
            "MATRIX a 0?;"
        ]),
        at: (4, 1),
        mended: Example::text(data![
            "DIMENSIONS NTAX=1 NCHAR=2;",
            "FORMAT SYMBOLS=\"01\" MISSING=?;",
            "MATRIX a 0?;"
        ]),
    },
];
