//! The check of one lookup.

use nexus::archive::nexus_lookup;
use oracle::lookup::{Stretch, lookup};

use super::difference::{Difference, judged, shown};
use super::{Checker, Met};
use crate::lent::{Lent, Rubbish};

/// What a call has answered.
#[derive(Clone, Copy, Debug, Eq, PartialEq)]
struct Given {
    length: usize,
    start: usize,
    number: u32,
}

impl Given {
    fn of(answer: Result<Stretch, u32>) -> Self {
        let (stretch, number) = match answer {
            Ok(stretch) => (stretch, 0),
            Err(number) => {
                let (start, length) = (0, 0);
                (Stretch { start, length }, number)
            }
        };
        Self {
            length: stretch.length,
            start: stretch.start,
            number,
        }
    }
}

impl Checker {
    /// All calls that look up a name in a record: with two kinds of rubbish, and the plain one.
    pub fn check_lookup(&mut self, name: &[u8], record: &[u8]) -> Result<Met, Difference> {
        let expected = lookup(name, record);
        let rubbish = Rubbish(0x0b5e_55ed ^ (record.len() + name.len()) as u32);
        for rubbish in [rubbish, rubbish.complement()] {
            self.lookup_call(name, record, Given::of(expected), rubbish)?;
        }
        self.plain_lookup(name, record, expected)?;
        Ok(match expected {
            Ok(_) => Met::Taken,
            Err(number) => Met::Refused(number),
        })
    }

    /// One call, with rubbish in both numbers, and around all memory.
    fn lookup_call(
        &mut self,
        name: &[u8],
        record: &[u8],
        expected: Given,
        rubbish: Rubbish,
    ) -> Result<(), Difference> {
        let shift = self.calls as usize % 8;
        let mut held = Lent::holding(record, shift, rubbish);
        let mut asked = Lent::holding(name, 7 - shift, rubbish);
        let mut number = Lent::<u32>::one(rubbish);
        let mut start = Lent::<usize>::one(rubbish);
        held.close_beside();
        asked.close_beside();
        self.calls += 1;
        let length = nexus_lookup(
            held.slice(),
            asked.slice(),
            &mut number.slice()[0],
            &mut start.slice()[0],
        );
        let given = Given {
            length,
            start: start.slice()[0],
            number: number.slice()[0],
        };
        held.open_behind(record.len());
        asked.open_behind(name.len());
        number.open_behind(1);
        start.open_behind(1);

        let mut wrong = Vec::new();
        if given != expected {
            wrong.push("the answer is another".to_string());
        }
        if held.slice() != record {
            wrong.push("the record has changed".to_string());
        }
        if asked.slice() != name {
            wrong.push("the name has changed".to_string());
        }
        wrong.extend(held.changed_beside("the record"));
        wrong.extend(asked.changed_beside("the name"));
        wrong.extend(number.changed_beside("the number"));
        wrong.extend(start.changed_beside("the start"));
        let call = || format!("lookup, {rubbish:?}");
        judged(call, || format!("{expected:?}"), given, wrong)
    }

    /// The call that gives the stretch itself: it is that of the record, and no copy.
    fn plain_lookup(
        &mut self,
        name: &[u8],
        record: &[u8],
        expected: Result<Stretch, u32>,
    ) -> Result<(), Difference> {
        self.calls += 1;
        let given = nexus::lookup(record, name).map_err(|refusal| refusal.number);
        let right = expected.map(|Stretch { start, length }| &record[start..start + length]);
        let same = match (given, right) {
            (Ok(given), Ok(right)) => std::ptr::eq(given, right),
            (given, right) => given == right,
        };
        if same {
            return Ok(());
        }
        let words = |answer: Result<&[u8], u32>| format!("{:?}", answer.map(shown));
        Err(Difference {
            call: "the plain call that looks up".to_string(),
            expected: words(right),
            given: words(given),
        })
    }
}
