//! On generated and damaged texts, records and lookups the calls answer what the oracle does, and
//! leave its bytes and no others, whatever memory holds and however long it is. What is read is
//! written, and what is written read again.

use calls::question::Kind;
use calls::{Checker, Met, Question, explained};

const TEXTS: u64 = 100_000;
const RECORDS: u64 = 50_000;
const LOOKUPS: u64 = 50_000;

/// What was met: how many questions were taken, how many refused by each number, and how many are
/// beyond the oracle.
struct Tally {
    taken: u64,
    refused: [u64; 34],
    beyond: u64,
}

#[track_caller]
fn checked(kind: Kind, seed: u64, count: u64) -> Tally {
    let mut checker = Checker::default();
    let mut tally = Tally {
        taken: 0,
        refused: [0; 34],
        beyond: 0,
    };
    for number in 0..count {
        let question = Question::generated(kind, seed, number);
        match question.check(&mut checker) {
            Ok(Met::Taken) => tally.taken += 1,
            Ok(Met::Refused(number)) => tally.refused[number as usize] += 1,
            Ok(Met::Beyond) => tally.beyond += 1,
            Err(difference) => {
                panic!("{kind:?} {number}:\n{}", explained(&question, &difference))
            }
        }
    }
    let (taken, beyond, calls) = (tally.taken, tally.beyond, checker.calls);
    println!("{kind:?}: {count}, {taken} of them taken, {beyond} beyond the oracle; {calls} calls");
    tally
}

#[test]
#[cfg_attr(not(archive), ignore = "no archive; tools/test-calls makes it")]
fn generated_texts() {
    let tally = checked(Kind::Text, 41, TEXTS);
    assert!(tally.taken > TEXTS / 3);
    for (number, count) in tally.refused.iter().enumerate().skip(3).take(27) {
        assert!(*count >= 100, "{number} is met {count} times");
    }
    assert!(tally.beyond < TEXTS / 100);
}

#[test]
#[cfg_attr(not(archive), ignore = "no archive; tools/test-calls makes it")]
fn generated_records() {
    let tally = checked(Kind::Record, 45, RECORDS);
    assert!(tally.taken > RECORDS / 3);
    assert!(tally.refused[31] > RECORDS / 3);
}

#[test]
#[cfg_attr(not(archive), ignore = "no archive; tools/test-calls makes it")]
fn generated_lookups() {
    let tally = checked(Kind::Lookup, 46, LOOKUPS);
    assert!(tally.taken > LOOKUPS / 3);
    assert!(tally.refused[31] > LOOKUPS / 20);
    assert!(tally.refused[33] > LOOKUPS / 10);
}
