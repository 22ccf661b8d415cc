//! Part of rove's src/alignment.rs: `dna_cell`. Left out are the FASTA reader and the choice
//! between FASTA, NEXUS and mixed input.

use crate::data::Cell;

/// IUPAC ambiguity is a set of possible states, not polymorphism or a vector
/// of normalized probabilities. N permits all four states.
pub(crate) fn dna_cell(symbol: char) -> Option<Cell> {
    let states: &[usize] = match symbol.to_ascii_uppercase() {
        'A' => &[0],
        'C' => &[1],
        'G' => &[2],
        'T' => &[3],
        'R' => &[0, 2],
        'Y' => &[1, 3],
        'S' => &[1, 2],
        'W' => &[0, 3],
        'K' => &[2, 3],
        'M' => &[0, 1],
        'B' => &[1, 2, 3],
        'D' => &[0, 2, 3],
        'H' => &[0, 1, 3],
        'V' => &[0, 1, 2],
        'N' => &[0, 1, 2, 3],
        _ => return None,
    };
    Some(if states.len() == 1 {
        Cell::State(states[0])
    } else {
        Cell::Uncertain(states.to_vec())
    })
}
