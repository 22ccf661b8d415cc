//! A smallest example.

use crate::check::{Checker, Difference};
use crate::fewer::{without_character, without_state, without_taxon};
use crate::question::Question;

/// How a question differs, in words: a smallest example, escaped, and its difference. Where it
/// differs only after those before it, it is shown as it is.
pub fn explained(question: &Question, difference: &Difference) -> String {
    let differs = |question: &Question| question.check(&mut Checker::default()).err();
    if differs(question).is_none() {
        return format!("{question}\n{difference}");
    }
    let example = smallest_question(question, |question| differs(question).is_some());
    let difference = differs(&example).expect("the smallest example differs");
    format!("{example}\n{difference}")
}

/// A smallest question that still differs.
fn smallest_question(question: &Question, differs: impl Fn(&Question) -> bool) -> Question {
    let lookup = |name: &[u8], record: &[u8]| Question::Lookup {
        name: name.to_vec(),
        record: record.to_vec(),
    };
    match question {
        Question::Text(text) => {
            let text = smallest(text, |text| differs(&Question::Text(text.to_vec())));
            Question::Text(text)
        }
        Question::Record(record) => {
            let differs = |record: &[u8]| differs(&Question::Record(record.to_vec()));
            Question::Record(smallest_record(record, differs))
        }
        Question::Lookup { name, record } => {
            let record = smallest_record(record, |record| differs(&lookup(name, record)));
            let name = smallest(name, |name| differs(&lookup(name, &record)));
            lookup(&name, &record)
        }
    }
}

/// A record that still differs: taxa, characters and state labels are taken away, with their counts,
/// and then bytes, while what is left differs.
fn smallest_record(record: &[u8], differs: impl Fn(&[u8]) -> bool) -> Vec<u8> {
    let mut record = record.to_vec();
    for fewer in [without_taxon, without_character, without_state] {
        let mut at = 0;
        while let Some(shorter) = fewer(&record, at) {
            if differs(&shorter) {
                record = shorter;
            } else {
                at += 1;
            }
        }
    }
    smallest(&record, differs)
}

/// A text that still differs, from which no byte can be taken away: pieces of the given one are
/// deleted, long ones first, while what is left differs.
pub fn smallest(text: &[u8], mut differs: impl FnMut(&[u8]) -> bool) -> Vec<u8> {
    let mut text = text.to_vec();
    let mut size = text.len();
    while size > 0 {
        let mut deleted = false;
        let mut at = 0;
        while at < text.len() {
            let end = text.len().min(at + size);
            let shorter = [&text[..at], &text[end..]].concat();
            if differs(&shorter) {
                text = shorter;
                deleted = true;
            } else {
                at = end;
            }
        }
        // What could not be deleted before may be deleted now.
        if !deleted {
            size /= 2;
        }
    }
    text
}

#[cfg(test)]
mod tests {
    use super::*;

    #[test]
    fn only_what_is_needed_stays() {
        let has = |text: &[u8], byte| text.contains(&byte);
        let text = b"one two three four five six seven eight";
        let both = |text: &[u8]| has(text, b'w') && has(text, b'x');
        assert_eq!(smallest(text, both), b"wx");
        assert_eq!(smallest(text, |_| true), b"");
        assert_eq!(smallest(text, |left| left == text), text);
    }
}
