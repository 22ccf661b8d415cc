//! A record by its lines, and how one of their values is changed.

use crate::generate::rng::Rng;

/// A record as its lines, each without its LF.
pub type Lines = Vec<Vec<u8>>;

pub fn split(record: &[u8]) -> Lines {
    let lines = record.strip_suffix(b"\n").expect("a record ends with LF");
    lines
        .split(|&byte| byte == b'\n')
        .map(<[u8]>::to_vec)
        .collect()
}

pub fn join(lines: &Lines) -> Vec<u8> {
    let mut record = lines.join(&b'\n');
    record.push(b'\n');
    record
}

pub fn key_of(line: &[u8]) -> &[u8] {
    line.split(|&byte| byte == b'=').next().unwrap_or(line)
}

pub fn places(lines: &[Vec<u8>], key: &str) -> Vec<usize> {
    let with_key = |&at: &usize| lines[at].starts_with(key.as_bytes());
    (0..lines.len()).filter(with_key).collect()
}

/// Change the value of one of the lines at these places, which have this key.
fn edit_one(
    rng: &mut Rng,
    lines: &mut Lines,
    at: &[usize],
    key: &str,
    change: impl Fn(&mut Rng, &mut Vec<u8>),
) -> bool {
    if at.is_empty() {
        return false;
    }
    let line = &mut lines[at[rng.below(at.len())]];
    let mut value = line.split_off(key.len());
    change(rng, &mut value);
    line.extend(value);
    true
}

/// Change the value of one of the lines with this key.
pub fn edit_value(
    rng: &mut Rng,
    lines: &mut Lines,
    key: &str,
    change: impl Fn(&mut Rng, &mut Vec<u8>),
) -> bool {
    let at = places(lines, key);
    edit_one(rng, lines, &at, key, change)
}

/// Change a name, a label that is there, or a state label.
pub fn edit_name(
    rng: &mut Rng,
    lines: &mut Lines,
    change: impl Fn(&mut Rng, &mut Vec<u8>),
) -> bool {
    let mut labels = places(lines, "label=");
    labels.retain(|&at| lines[at] != b"label=");
    if !labels.is_empty() && rng.percent(40) {
        return edit_one(rng, lines, &labels, "label=", change);
    }
    let mut keys = vec!["name="];
    if !places(lines, "state=").is_empty() {
        keys.push("state=");
    }
    let key = rng.pick(&keys);
    edit_value(rng, lines, key, change)
}

pub fn insert_in_name(rng: &mut Rng, lines: &mut Lines, what: &'static [u8]) -> bool {
    edit_name(rng, lines, |rng, name| {
        let ends = [0, name.len()];
        let at = rng.choose(&ends);
        name.splice(at..at, what.iter().copied());
    })
}

/// Put something between two characters of a name, or at its ends; an escape stays whole.
pub fn insert_within_name(rng: &mut Rng, lines: &mut Lines, what: &'static [u8]) -> bool {
    edit_name(rng, lines, |rng, name| {
        let at = rng.choose(&boundaries(name));
        name.splice(at..at, what.iter().copied());
    })
}

/// Where the characters and escapes of a name begin, and its end.
fn boundaries(name: &[u8]) -> Vec<usize> {
    let mut boundaries = Vec::new();
    let mut escaped = false;
    for (at, &byte) in name.iter().enumerate() {
        if !escaped && !(0x80..0xc0).contains(&byte) {
            boundaries.push(at);
        }
        escaped = !escaped && byte == b'\\';
    }
    boundaries.push(name.len());
    boundaries
}

pub fn edit_cell(
    rng: &mut Rng,
    lines: &mut Lines,
    change: impl Fn(&mut Rng, &mut Vec<u8>),
) -> bool {
    edit_value(rng, lines, "cells=", |rng, value| {
        let mut cells: Vec<Vec<u8>> = value.split(|&b| b == b' ').map(<[u8]>::to_vec).collect();
        let at = rng.below(cells.len());
        change(rng, &mut cells[at]);
        *value = cells.join(&b' ');
    })
}

pub fn add(value: &mut Vec<u8>, change: i128) {
    let text = std::str::from_utf8(value).expect("digits");
    let number: i128 = text.parse().expect("a count");
    *value = (number + change).to_string().into_bytes();
}

pub fn swapped_case(byte: u8) -> u8 {
    if byte.is_ascii_alphabetic() {
        byte ^ 0x20
    } else {
        byte
    }
}
