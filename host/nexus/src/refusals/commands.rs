//! Refusals of blocks and commands.

use super::Entry;
use super::example::Example;
use super::whole::SMALL;

pub(super) static ENTRIES: [Entry; 8] = [
    Entry {
        number: 7,
        title: "empty command",
        sentence: "A `;` stands where a command should begin.",
        meaning: "A command is one or more words, ended by a `;`. A `;` by itself is no command, \
            neither in a block nor between blocks, nor directly behind #NEXUS.",
        place: "The `;`.",
        mend: "Take the `;` out.",
        refused: Example::text(data!["DIMENSIONS NTAX=1 NCHAR=2;;", "MATRIX a 01;"]),
        at: (3, 27),
        mended: Example::text(SMALL),
    },
    Entry {
        number: 8,
        title: "no `;`",
        sentence: "This command is not ended by a `;`.",
        meaning: "Every command is ended by a `;`, also BEGIN, END and the last one of the text. \
            Where a `;` is absent, the command goes on to the next one; only if none follows is it \
            refused so.",
        place: "The command's first word.",
        mend: "Write the `;`.",
        refused: Example::text(lines![
            "#NEXUS",
            "BEGIN DATA;",
            "DIMENSIONS NTAX=1 NCHAR=2;",
            "MATRIX a 01;",
            "END"
        ]),
        at: (5, 1),
        mended: Example::text(SMALL),
    },
    Entry {
        number: 9,
        title: "no END",
        sentence: "This block is not ended by END.",
        meaning: "A block goes from BEGIN to END or ENDBLOCK. The text may not stop before that. \
            An END in quotes is none.",
        place: "The block's name.",
        mend: "Write END and a `;` behind the block's last command.",
        refused: Example::text(lines![
            "#NEXUS",
            "BEGIN DATA;",
            "DIMENSIONS NTAX=1 NCHAR=2;",
            "MATRIX a 01;"
        ]),
        at: (2, 7),
        mended: Example::text(SMALL),
    },
    Entry {
        number: 10,
        title: "words after END",
        sentence: "Only a `;` may follow END.",
        meaning: "END and ENDBLOCK stand alone, and the block's name is not repeated. This is \
            judged before everything else about the command, in every block.",
        place: "The word END or ENDBLOCK.",
        mend: "Take out what stands between END and its `;`. If that is the next block, the `;` is \
            absent.",
        refused: Example::text(lines![
            "#NEXUS",
            "BEGIN DATA;",
            "DIMENSIONS NTAX=1 NCHAR=2;",
            "MATRIX a 01;",
            "END DATA;"
        ]),
        at: (5, 1),
        mended: Example::text(SMALL),
    },
    Entry {
        number: 11,
        title: "not BEGIN and a name",
        sentence: "A block should begin here: BEGIN, the block's name and a `;`.",
        meaning: "Outside of blocks there is only one command: BEGIN, one word and a `;`.",
        place: "The command's first word.",
        mend: "Write BEGIN, the block's name and a `;`. Commands that stand outside of a block \
            belong into one.",
        refused: Example::text(lines![
            "#NEXUS",
            "DATA;",
            "DIMENSIONS NTAX=1 NCHAR=2;",
            "MATRIX a 01;",
            "END;"
        ]),
        at: (2, 1),
        mended: Example::text(SMALL),
    },
    Entry {
        number: 12,
        title: "block repeated, misplaced or unsupported",
        sentence: "This block is repeated, stands in the wrong place, or is not supported.",
        meaning: "The blocks are TAXA (once, before the matrix), DATA or CHARACTERS (one of the \
            two, once), ASSUMPTIONS (once, after the matrix) and TREES, which is passed over and \
            may stand anywhere. All others are refused, since what they say could change what the \
            matrix means. A block's name is a plain word, not in quotes.",
        place: "The block's name.",
        mend: "Take the block out, or bring the blocks into this order: TAXA, DATA, ASSUMPTIONS.",
        refused: Example::text(lines![
            "#NEXUS",
            "BEGIN DATA;",
            "DIMENSIONS NTAX=1 NCHAR=2;",
            "MATRIX a 01;",
            "END;",
            "BEGIN PAUP;",
            "SET CRITERION=PARSIMONY;",
            "END;"
        ]),
        at: (6, 7),
        mended: Example::text(SMALL),
    },
    Entry {
        number: 13,
        title: "command repeated, misplaced or unsupported",
        sentence: "This command is repeated, stands in the wrong place, or is not supported here.",
        meaning: "TAXA has DIMENSIONS and then TAXLABELS. DATA and CHARACTERS have DIMENSIONS, \
            FORMAT, TAXLABELS (if no TAXA block declared taxa), CHARLABELS, STATELABELS, \
            CHARSTATELABELS and, as the last, MATRIX. ASSUMPTIONS has OPTIONS, in the form \
            `OPTIONS DEFTYPE=ORD` or `OPTIONS DEFTYPE=UNORD`, and TYPESET. Each may stand once.",
        place: "The command's first word.",
        mend: "Take the command out, or bring it before MATRIX.",
        refused: Example::text(data![
            "TITLE Wings;",
            "DIMENSIONS NTAX=1 NCHAR=2;",
            "MATRIX a 01;"
        ]),
        at: (3, 1),
        mended: Example::text(SMALL),
    },
    Entry {
        number: 14,
        title: "a needed command, dimension or matrix is absent",
        sentence: "A command, a dimension or the matrix is needed here, and absent.",
        meaning: "MATRIX needs DIMENSIONS before it, with NCHAR, and with NTAX unless taxa were \
            declared; NEWTAXA needs NTAX. A TAXA block needs DIMENSIONS with NTAX, and TAXLABELS. \
            A DATA or CHARACTERS block needs MATRIX, and a text one such block.",
        place: "The word MATRIX; for a TAXA block the word DIMENSIONS, if NTAX is absent, or the \
            block's name; for an absent MATRIX the block's name; for an absent block the word \
            #NEXUS.",
        mend: "Write what is absent, before the place.",
        refused: Example::text(data!["DIMENSIONS NCHAR=2;", "MATRIX a 01;"]),
        at: (4, 1),
        mended: Example::text(SMALL),
    },
];
