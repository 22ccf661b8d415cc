//! What was found of all files together.

use std::collections::BTreeMap;

use super::workers::Found;
use crate::args::Format;
use crate::json::Object;
use crate::session::Outcome;

/// How many files were read, were refused by which number, and could not be read.
#[derive(Debug, Default)]
pub struct Summary {
    read: usize,
    unreadable: usize,
    refused: BTreeMap<u32, usize>,
}

impl Summary {
    /// Counts what was found of one more file.
    pub fn count(&mut self, found: &Found) {
        match found.outcome {
            Outcome::Read => self.read += 1,
            Outcome::Unreadable => self.unreadable += 1,
            Outcome::Refused(number) => *self.refused.entry(number).or_default() += 1,
        }
    }

    /// How many were refused so far.
    pub fn refused(&self) -> usize {
        self.refused.values().sum()
    }

    /// What is said of them all.
    pub fn said(&self, format: Format) -> String {
        match format {
            Format::Text => self.text(),
            Format::Json => {
                let object = Object::new().value("summary", self.object());
                format!("{object}\n")
            }
        }
    }

    fn total(&self) -> usize {
        self.read + self.unreadable + self.refused()
    }

    fn text(&self) -> String {
        let mut counts = vec![format!("{} read", grouped(self.read))];
        counts.push(format!("{} refused", grouped(self.refused())));
        if self.unreadable > 0 {
            counts.push(format!("{} cannot be read", grouped(self.unreadable)));
        }
        let mut said = format!("{}: {}\n", files(self.total()), counts.join(", "));
        for (number, count) in &self.refused {
            let reason = nexus::refusals::entry(*number).map_or("", |entry| entry.title);
            said.push_str(&format!("{:>6}  [{number}] {reason}\n", grouped(*count)));
        }
        said
    }

    fn object(&self) -> Object {
        let numbers = self.refused.iter();
        let by_number = numbers.fold(Object::new(), |object, (number, count)| {
            object.value(&number.to_string(), count)
        });
        Object::new()
            .value("files", self.total())
            .value("read", self.read)
            .value("refused", self.refused())
            .value("unreadable", self.unreadable)
            .value("by_number", by_number)
    }
}

fn files(count: usize) -> String {
    match count {
        1 => "1 file".to_string(),
        n => format!("{} files", grouped(n)),
    }
}

/// A number with a comma before each three digits.
fn grouped(number: usize) -> String {
    let digits = number.to_string();
    let mut said = String::new();
    for (place, digit) in digits.chars().enumerate() {
        if place > 0 && (digits.len() - place).is_multiple_of(3) {
            said.push(',');
        }
        said.push(digit);
    }
    said
}

#[cfg(test)]
mod tests {
    use super::*;

    #[test]
    fn numbers_are_grouped() {
        for (number, said) in [(0, "0"), (999, "999"), (1_000, "1,000")] {
            assert_eq!(grouped(number), said);
        }
        assert_eq!(grouped(1_234_567), "1,234,567");
        assert_eq!(files(1), "1 file");
        assert_eq!(files(10_000), "10,000 files");
    }
}
