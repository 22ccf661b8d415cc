//! The lines of a record, one after another.

/// The lines from one on. They are those of a right record, so each has the key that is asked for.
#[derive(Clone, Copy, Debug, Eq, Hash, PartialEq)]
pub(super) struct Lines<'r> {
    rest: &'r [u8],
}

impl<'r> Lines<'r> {
    pub fn new(rest: &'r [u8]) -> Self {
        Self { rest }
    }

    /// The next line's value. The key is given with its `=`.
    pub fn value(&mut self, key: &str) -> &'r [u8] {
        let (line, rest) = split_at_first(self.rest, b'\n');
        debug_assert!(line.starts_with(key.as_bytes()), "no line {key}");
        self.rest = rest;
        line.get(key.len()..).unwrap_or_default()
    }

    /// The next line's value, which is a number.
    pub fn number(&mut self, key: &str) -> usize {
        number(self.value(key))
    }
}

/// What stands before the first such byte, and what behind it.
pub(super) fn split_at_first(bytes: &[u8], at: u8) -> (&[u8], &[u8]) {
    match bytes.iter().position(|&byte| byte == at) {
        Some(end) => (&bytes[..end], &bytes[end + 1..]),
        None => (bytes, &[]),
    }
}

/// The number that these digits spell.
pub(super) fn number(digits: &[u8]) -> usize {
    digits
        .iter()
        .fold(0, |number, digit| number * 10 + usize::from(digit - b'0'))
}
