//! Generated questions, with the oracle's answers and with buffers of every kind of length.

use oracle::answer::{self, ENOUGH};
use oracle::generate;
use oracle::messages::TABLE;
use oracle::tally::Tally;

use crate::question::{Case, Question, work_needed};
use crate::value::is_refusal;

/// The length of a buffer beside that of the answer.
#[derive(Clone, Copy, Debug)]
enum Room {
    OneMore,
    Full,
    OneShort,
}

const LONG_ENOUGH: &[Room] = &[Room::OneMore, Room::Full];

/// The length of the buffer for the question with this number, whose answer this is. The rooms
/// take turns; for a refusal the buffer is short.
fn room(number: u64, answer: &[u8], rooms: &[Room]) -> usize {
    let turn = |choices: usize| (number % choices as u64) as usize;
    if is_refusal(answer) {
        return [0, 1, 3][turn(3)];
    }
    match rooms[turn(rooms.len())] {
        Room::OneMore => answer.len() + 1,
        Room::Full => answer.len(),
        Room::OneShort => answer.len() - 1,
    }
}

/// What a text, and a record, is answered where nothing is short.
fn reading(text: &[u8]) -> Vec<u8> {
    answer::read(text, ENOUGH, ENOUGH).into_bytes()
}

fn writing(record: &[u8]) -> Vec<u8> {
    answer::write(record, ENOUGH).into_bytes()
}

/// The cases of the text with this number. Each text is asked with enough of everything. Every
/// third that is read is asked again with a buffer that is one byte short, and every twentieth
/// with work memory that is one number short.
fn text_cases(seed: u64, number: u64) -> Vec<Case> {
    let text = generate::text(seed, number);
    let (work, answer) = (work_needed(&text), reading(&text));
    let enough = room(number, &answer, LONG_ENOUGH);
    let mut lengths = vec![(work, enough)];
    if number.is_multiple_of(3) && !is_refusal(&answer) {
        lengths.push((work, room(number, &answer, &[Room::OneShort])));
    }
    if number.is_multiple_of(20) {
        lengths.push((work - 1, enough));
    }
    let ask = |(work, room)| {
        let text = text.clone();
        Question::Read { work, room, text }.asked(format!("text {number} of seed {seed}"))
    };
    lengths.into_iter().filter_map(ask).collect()
}

/// The cases of the record with this number, likewise.
fn record_cases(seed: u64, number: u64) -> Vec<Case> {
    let record = generate::record(seed, number);
    let answer = writing(&record);
    let mut rooms = vec![room(number, &answer, LONG_ENOUGH)];
    if number.is_multiple_of(3) && !is_refusal(&answer) {
        rooms.push(room(number, &answer, &[Room::OneShort]));
    }
    let ask = |room| {
        let record = record.clone();
        Question::Write { room, record }.asked(format!("record {number} of seed {seed}"))
    };
    rooms.into_iter().filter_map(ask).collect()
}

fn lookup_case(seed: u64, number: u64) -> Option<Case> {
    let (name, record) = generate::lookup(seed, number);
    Question::Lookup { name, record }.asked(format!("lookup {number} of seed {seed}"))
}

/// The cases of a run with so many texts, and a line on what the texts reach.
pub fn cases(texts: u64, seed: u64) -> (Vec<Case>, String) {
    let others = (texts / 5).max(1);
    let mut tally = Tally::default();
    for number in 0..texts {
        tally.add(&generate::text(seed, number));
    }
    let of_texts = (0..texts).flat_map(|number| text_cases(seed, number));
    let of_records = (0..others).flat_map(|number| record_cases(seed, number));
    let of_lookups = (0..others).flat_map(|number| lookup_case(seed, number));
    let cases: Vec<Case> = of_texts.chain(of_records).chain(of_lookups).collect();
    let said = format!(
        "{texts} texts, {others} records and {others} lookups of seed {seed}: {} cases\n{}",
        cases.len(),
        reached(&tally)
    );
    (cases, said)
}

/// So many rows that were not hit are named.
const FEW: usize = 10;

/// How many texts are read, and which places of the reader that refuse are reached.
fn reached(tally: &Tally) -> String {
    let refused = tally.texts - tally.read - tally.beyond;
    let rows = TABLE.iter().zip(&tally.rows);
    let missed: Vec<&str> = rows
        .filter(|(_, count)| **count == 0)
        .map(|(row, _)| row.site)
        .collect();
    let mut said = format!(
        "texts: {} read, {refused} refused, {} skipped as beyond the reader\n\
         messages: {} of the {} rows of the table hit",
        tally.read,
        tally.beyond,
        TABLE.len() - missed.len(),
        TABLE.len()
    );
    if (1..=FEW).contains(&missed.len()) {
        said += &format!(", all but {}", missed.join(", "));
    }
    said
}

#[cfg(test)]
mod tests {
    use super::*;
    use crate::value::Value;

    #[test]
    fn rooms_take_turns() {
        let record = b"datatype=";
        let rooms: Vec<usize> = (0..3).map(|n| room(n, record, LONG_ENOUGH)).collect();
        assert_eq!(rooms, [10, 9, 10]);
        assert_eq!(room(0, record, &[Room::OneShort]), 8);
        let refusal = b"refused=6\nline=1\ncolumn=1\n";
        let rooms: Vec<usize> = (0..3).map(|n| room(n, refusal, LONG_ENOUGH)).collect();
        assert_eq!(rooms, [0, 1, 3]);
    }

    #[test]
    fn some_questions_are_asked_with_too_little() {
        let (cases, said) = cases(60, 1);
        let printed = |number: &str| {
            let start = format!("refused={number}\n");
            let start: Vec<u64> = start.bytes().map(u64::from).collect();
            let begins = |case: &&Case| match &case.expected {
                Value::Lists(lists) => lists[0].starts_with(&start),
                Value::Numbers(_) => false,
            };
            cases.iter().filter(begins).count()
        };
        assert_eq!(printed("2"), 3);
        assert!(printed("30") > 0);
        assert!(printed("31") > 0);
        assert!(said.starts_with("60 texts, 12 records and 12 lookups of seed 1: "));
    }
}
