//! Refusals of the matrix.

use super::Entry;
use super::example::Example;

pub(super) static ENTRIES: [Entry; 4] = [
    Entry {
        number: 22,
        title: "cell symbol",
        sentence: "A symbol here is that of no state, and neither missing nor gap.",
        meaning: "A cell is one symbol: of a state, for missing or for a gap; or it is a set of \
            states in brackets. Without FORMAT the states are 0 and 1, missing is `?`, and there \
            is no gap. DNA has A, C, G, T and the codes of their sets, and `?` and `-` unless \
            MISSING and GAP say otherwise. Case makes no difference unless RESPECTCASE was given. \
            Text in quotes is no cell.",
        place: "The word that has the symbol, at its first character; it is judged whole before \
            its length. In a set the word in the set.",
        mend: "Declare the symbol in FORMAT, by SYMBOLS, MISSING or GAP, or correct the cell. If \
            the word is a taxon's name, the row before it has too few cells.",
        refused: Example::text(data!["DIMENSIONS NTAX=1 NCHAR=3;", "MATRIX a 012;"]),
        at: (4, 10),
        mended: Example::text(data![
            "DIMENSIONS NTAX=1 NCHAR=3;",
            "FORMAT SYMBOLS=\"012\";",
            "MATRIX a 012;"
        ]),
    },
    Entry {
        number: 23,
        title: "state set open, empty or holding what is no state",
        sentence: "A set of states is not closed, is empty, or holds something that is no state.",
        meaning: "States in `{}` are uncertain, states in `()` polymorphic. A set holds one or \
            more states, and is closed by the bracket of its own kind; where rows are interleaved, \
            on its line. Missing, gap and the codes of DNA for several bases are no states.",
        place: "What is no state, or else the bracket that opens the set.",
        mend: "Close the set, and write only symbols of states in it. Write the missing symbol \
            alone where nothing is known.",
        refused: Example::text(data!["DIMENSIONS NTAX=1 NCHAR=2;", "MATRIX a 0{};"]),
        at: (4, 11),
        mended: Example::text(data!["DIMENSIONS NTAX=1 NCHAR=2;", "MATRIX a 0{01};"]),
    },
    Entry {
        number: 24,
        title: "row short, too long, empty, of another width or out of order",
        sentence: "A row has too few or too many cells, or its page asks for another width or \
            name.",
        meaning: "A row has NCHAR cells. Where rows are not interleaved they may break anywhere, \
            and the word behind the last cell is the next name; no word of cells may go beyond \
            NCHAR, and the last row may not stop before. Where they are interleaved each line of a \
            page has at least one cell and as many as the others, and the names of the first page \
            come again in their order.",
        place: "The row's name; where rows are not interleaved and one is too long, the word that \
            goes beyond NCHAR.",
        mend: "Correct the row, or NCHAR.",
        refused: Example::text(data!["DIMENSIONS NTAX=1 NCHAR=3;", "MATRIX a 0101;"]),
        at: (4, 10),
        mended: Example::text(data!["DIMENSIONS NTAX=1 NCHAR=4;", "MATRIX a 0101;"]),
    },
    Entry {
        number: 25,
        title: "declared taxon absent",
        sentence: "A taxon that was declared has no row.",
        meaning: "Where TAXLABELS declares taxa, each has a row. Rows may come in another order, \
            and the case of ASCII letters may differ; the record has the declared spelling and \
            order. This is judged after all rows were read.",
        place: "The word MATRIX.",
        mend: "Look for a name that is spelled differently in TAXLABELS and in the matrix.",
        refused: Example::text(data![
            "DIMENSIONS NTAX=2 NCHAR=2;",
            "TAXLABELS Homo Pan;",
            "MATRIX",
            "Homo 01",
            "Pam 11;"
        ]),
        at: (5, 1),
        mended: Example::text(data![
            "DIMENSIONS NTAX=2 NCHAR=2;",
            "TAXLABELS Homo Pan;",
            "MATRIX",
            "Homo 01",
            "Pan 11;"
        ]),
    },
];
