//! A record with something less in it, and the counts with it. What else may be wrong in the record
//! stays as it is, as far as its lines have their keys.

type Lines = Vec<Vec<u8>>;

fn split(record: &[u8]) -> Lines {
    let lines = record.split(|&byte| byte == b'\n');
    lines.map(<[u8]>::to_vec).collect()
}

fn join(lines: &Lines) -> Vec<u8> {
    lines.join(&b'\n')
}

/// Where the lines with this key stand.
fn places(lines: &Lines, key: &str) -> Vec<usize> {
    let has = |&at: &usize| lines[at].starts_with(key.as_bytes());
    (0..lines.len()).filter(has).collect()
}

/// Makes the count of a line less by one, and keeps zeros in front of it.
fn lower(line: &mut Vec<u8>, key: &str) -> Option<()> {
    let digits = std::str::from_utf8(line.get(key.len()..)?).ok()?;
    let count = digits.parse::<u64>().ok()?.checked_sub(1)?;
    let zeros = digits.len() - digits.trim_start_matches('0').len();
    *line = format!("{key}{}{count}", "0".repeat(zeros)).into_bytes();
    Some(())
}

/// The record without the taxon of this number, from 0; none where there is no such taxon.
pub fn without_taxon(record: &[u8], number: usize) -> Option<Vec<u8>> {
    let mut lines = split(record);
    let at = *places(&lines, "name=").get(number)?;
    lines.remove(at);
    if lines.get(at)?.starts_with(b"cells=") {
        lines.remove(at);
    }
    let count = *places(&lines, "taxa=").first()?;
    lower(&mut lines[count], "taxa=")?;
    Some(join(&lines))
}

/// The record without the character of this number, from 0, and its cells.
pub fn without_character(record: &[u8], number: usize) -> Option<Vec<u8>> {
    let mut lines = split(record);
    let characters = places(&lines, "character=");
    let from = *characters.get(number)?;
    for &later in &characters[number + 1..] {
        lower(&mut lines[later], "character=")?;
    }
    // Its lines go up to those of the next, or to the last LF.
    let end = characters.get(number + 1).copied();
    lines.drain(from..end.unwrap_or(lines.len() - 1));
    for row in places(&lines, "cells=") {
        let mut cells: Vec<&[u8]> = lines[row]["cells=".len()..]
            .split(|&byte| byte == b' ')
            .collect();
        if number < cells.len() {
            cells.remove(number);
        }
        lines[row] = [b"cells=", cells.join(&b' ').as_slice()].concat();
    }
    let count = *places(&lines, "characters=").first()?;
    lower(&mut lines[count], "characters=")?;
    Some(join(&lines))
}

/// The record without the state label of this number among all, from 0.
pub fn without_state(record: &[u8], number: usize) -> Option<Vec<u8>> {
    let mut lines = split(record);
    let at = *places(&lines, "state=").get(number)?;
    let counts = places(&lines, "states=");
    let count = *counts.iter().rfind(|&&count| count < at)?;
    lines.remove(at);
    lower(&mut lines[count], "states=")?;
    Some(join(&lines))
}

#[cfg(test)]
mod tests {
    use super::*;
    use oracle::generate;
    use oracle::record::unspell;

    /// What is left of a record is one, as long as something is left.
    #[test]
    fn records_stay_records() {
        let mut taken = [0; 3];
        for number in 0..2_000 {
            let record = generate::record(7, number);
            let Some(reading) = unspell(&record) else {
                continue;
            };
            let states = reading.state_labels().iter().map(Vec::len).sum();
            let counts = [reading.taxa().len(), reading.character_count(), states];
            let ways = [without_taxon, without_character, without_state];
            for (kind, (way, count)) in ways.into_iter().zip(counts).enumerate() {
                assert_eq!(way(&record, count), None);
                for at in 0..count {
                    let shorter = way(&record, at).expect("something less");
                    assert!(shorter.len() < record.len());
                    let left = kind == 2 || count > 1;
                    assert_eq!(unspell(&shorter).is_some(), left);
                    taken[kind] += 1;
                }
            }
        }
        assert!(taken.iter().all(|count| *count > 300), "{taken:?}");
    }

    #[test]
    fn other_faults_stay() {
        let record = b"datatype=DNA\ntaxa=02\ncharacters=1\nsymbols=ACGT\nname=a\ncells=0\nname=b\ncells=m\n\
            character=1\nlabel=\norder=UNORD\nstates=0\nrest";
        let fewer = b"datatype=DNA\ntaxa=01\ncharacters=1\nsymbols=ACGT\nname=b\ncells=m\n\
            character=1\nlabel=\norder=UNORD\nstates=0\nrest";
        assert_eq!(without_taxon(record, 0).as_deref(), Some(&fewer[..]));
        assert_eq!(without_taxon(b"name=a", 0), None);
    }
}
