//! Texts of many taxa, by how their names are made and whether they are declared.

use crate::data;

/// Where the names of the taxa are declared before the rows, in TAXLABELS.
#[derive(Clone, Copy, Debug, Eq, PartialEq)]
pub enum Declared {
    No,
    InOrder,
    Reversed,
}

/// A text of taxa with these names, and so many characters.
pub fn text(names: &[String], characters: usize, declared: Declared) -> Vec<u8> {
    let lines: Vec<String> = names.iter().map(|name| format!("{name}\n")).collect();
    let labels = match declared {
        Declared::No => None,
        Declared::InOrder => Some(lines.concat()),
        Declared::Reversed => Some(lines.iter().rev().cloned().collect()),
    };
    let commands = labels.map_or(String::new(), |labels| format!("TAXLABELS\n{labels};"));
    let mut rows = String::new();
    for (taxon, name) in names.iter().enumerate() {
        let states = taxon % (1 << characters.min(5));
        rows.push_str(&format!("{name} {states:0characters$b}\n"));
    }
    data(names.len(), characters, &commands, rows.as_bytes())
}

/// So many names of a kind, by their numbers.
pub fn names(taxa: usize, kind: fn(usize) -> String) -> Vec<String> {
    (0..taxa).map(kind).collect()
}

/// The number in so many digits of these, the first digit that of the ones.
fn digits(mut taxon: usize, digits: &[u8], length: usize) -> String {
    let mut name = String::new();
    for _ in 0..length {
        name.push(char::from(digits[taxon % digits.len()]));
        taxon /= digits.len();
    }
    name
}

const LETTERS: &[u8] = b"abcdefghijklmnopqrstuvwxyz";

/// What a word may have besides letters and digits, but for `_`.
const SIGNS: &[u8] = b"abcdefghijklmnopqrstuvwxyz0123456789!#$%&-.?@|~";

/// Names of four letters, 456,976 of them.
pub fn four_letters(taxon: usize) -> String {
    digits(taxon, LETTERS, 4)
}

/// Names of three letters, digits and marks, 103,823 of them. Any number of them has marks as often as any
/// other: a name with one takes longer than one of letters and digits.
pub fn three_signs(taxon: usize) -> String {
    const ALL: usize = SIGNS.len().pow(3);
    digits(taxon * 30_011 % ALL, SIGNS, 3)
}

/// Names that begin alike: those of a species, by number.
pub fn species(taxon: usize) -> String {
    format!("Drosophila_melanogaster_{taxon:05}")
}

/// Names of four letters, digits and marks, of which 47 in a row differ in the last byte alone.
pub fn last_byte(taxon: usize) -> String {
    let front = digits(taxon / SIGNS.len(), SIGNS, 3);
    format!("{front}{}", char::from(SIGNS[taxon % SIGNS.len()]))
}

/// Quoted names, with a blank and a quote within.
pub fn quoted(taxon: usize) -> String {
    format!("'O''Hara {taxon}'")
}

/// Names with a comment within.
pub fn commented(taxon: usize) -> String {
    format!("taxon[note]{taxon}")
}

/// At most so many names of five letters that lie together in a table of so many slots: their first
/// slots are all in one stretch of it, which is as short as it can be. The slot of a name is that of
/// crates/slots.
pub fn colliding(taxa: usize, slots: usize) -> Vec<String> {
    const ALL: usize = 26usize.pow(5);
    let stretch = slots * taxa / ALL + 1;
    let slot = |taxon: usize| hash(five_letters(taxon)) * slots / (1 << 32);
    let near = (0..ALL).filter(|taxon| slot(*taxon) < stretch);
    near.take(taxa)
        .map(|taxon| word(five_letters(taxon)))
        .collect()
}

/// So many names of six letters whose bits stand in few of the words by which the names of a record
/// are sifted (crates/naming, filter.rt), so that most of them are suspects. They are as few words as
/// leave so many names.
pub fn crowding(taxa: usize) -> Vec<String> {
    const ALL: usize = 26usize.pow(6);
    const WORDS: usize = 16_384;
    let share = (taxa as f64 / ALL as f64).sqrt();
    let few = (1.1 * share * WORDS as f64) as usize + 1;
    let marked = |h: usize| h / 262_144 < few && h * MIXED % (1 << 32) / 262_144 < few;
    let near = (0..ALL).filter(|taxon| marked(hash(six_letters(*taxon))));
    near.take(taxa)
        .map(|taxon| word(six_letters(taxon)))
        .collect()
}

fn word<const N: usize>(letters: [u8; N]) -> String {
    letters.map(char::from).iter().collect()
}

fn five_letters(taxon: usize) -> [u8; 5] {
    [1, 26, 676, 17_576, 456_976].map(|unit| LETTERS[taxon / unit % 26])
}

fn six_letters(taxon: usize) -> [u8; 6] {
    [1, 26, 676, 17_576, 456_976, 11_881_376].map(|unit| LETTERS[taxon / unit % 26])
}

const MIXED: usize = 2_654_435_761;

/// The number of a name, as crates/slots/specs/Hashes.antt defines it.
fn hash<const N: usize>(name: [u8; N]) -> usize {
    let mixed = |h: usize, byte: u8| (h + usize::from(byte)) * MIXED % (1 << 32);
    name.into_iter().fold(0, mixed)
}
