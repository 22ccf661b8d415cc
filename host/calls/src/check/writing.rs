//! The check of one record that is to be written.

use nexus::Record;
use nexus::archive::nexus_write;
use oracle::answer::{self, Answer, ENOUGH};
use oracle::form::form;
use oracle::record::unspell;

use super::difference::{compared, judged, shown, words};
use super::reading::refused;
use super::{Checker, Difference, Met};
use crate::lent::{Lent, Rubbish};

/// What a call has answered.
#[derive(Clone, Copy, Debug, Eq, PartialEq)]
struct Given {
    length: usize,
    number: u32,
}

/// What the oracle says of a record, whatever the buffer.
struct Full {
    answer: Answer,
    /// The form's length, also where it is too long to be written; where there is none, more than
    /// the form of so many bytes could have.
    enough: usize,
}

impl Full {
    fn of(record: &[u8]) -> Self {
        let answer = answer::write(record, ENOUGH);
        let enough = match &answer {
            Answer::Bytes(form) => form.len(),
            _ => match unspell(record) {
                Some(reading) => form(&reading).len(),
                None => 2 * record.len() + 256,
            },
        };
        Self { answer, enough }
    }

    /// What the oracle answers to a call with such a buffer.
    fn within(&self, room: usize) -> Answer {
        match &self.answer {
            Answer::Bytes(form) => answer::within(form.clone(), room as u64),
            refused => refused.clone(),
        }
    }

    fn met(&self) -> Met {
        match &self.answer {
            Answer::Bytes(_) => Met::Taken,
            Answer::Refused(refusal) => Met::Refused(refusal.number),
            Answer::Beyond(_) => unreachable!("no record is beyond the oracle"),
        }
    }
}

impl Checker {
    /// All calls that write a record, each with two kinds of rubbish: buffers long enough, full, one
    /// byte short, of half the length and empty. Then, if it is written, that form is read again.
    pub fn check_record(&mut self, record: &[u8]) -> Result<Met, Difference> {
        self.check_record_with(record, |enough| {
            let short = enough.saturating_sub(1);
            vec![enough + 9, enough + 1, enough, short, enough / 2, 1, 0]
        })
    }

    /// Fewer calls, for records that take long.
    pub fn check_long_record(&mut self, record: &[u8]) -> Result<Met, Difference> {
        self.check_record_with(record, |enough| vec![enough, enough.saturating_sub(1)])
    }

    /// The calls for these lengths of a buffer, given what is enough for the form.
    fn check_record_with(
        &mut self,
        record: &[u8],
        rooms: impl Fn(usize) -> Vec<usize>,
    ) -> Result<Met, Difference> {
        let full = Full::of(record);
        let rubbish = Rubbish(0x3c0f_fee5 ^ record.len() as u32);
        for room in rooms(full.enough) {
            self.write_call(record, &full, room, rubbish)?;
            self.write_call(record, &full, room, rubbish.complement())?;
        }
        self.check_again(record)?;
        Ok(full.met())
    }

    /// The plain call that writes a record, and then that reads its form: this gives the record.
    pub(super) fn check_again(&mut self, record: &[u8]) -> Result<(), Difference> {
        let expected = answer::write(record, ENOUGH);
        let given = self.plain_write(record);
        compared("the plain call that writes", &expected, &given)?;
        if let Answer::Bytes(form) = given {
            let right = Answer::Bytes(record.to_vec());
            let again = self.plain_read(&form);
            compared("the plain call that reads the form", &right, &again)?;
        }
        Ok(())
    }

    /// The call that lends memory itself.
    fn plain_write(&mut self, record: &[u8]) -> Answer {
        self.calls += 1;
        let record = Record::from_bytes(record.to_vec());
        let form = record.and_then(|record| record.write());
        form.map_or_else(refused, Answer::Bytes)
    }

    /// One call, with rubbish in all memory, and around it.
    fn write_call(
        &mut self,
        record: &[u8],
        full: &Full,
        room: usize,
        rubbish: Rubbish,
    ) -> Result<(), Difference> {
        let shift = self.calls as usize % 8;
        let mut held = Lent::holding(record, shift, rubbish);
        let mut buffer = Lent::<u8>::new(room, 7 - shift, rubbish);
        let mut number = Lent::<u32>::one(rubbish);
        held.close_beside();
        buffer.close_beside();
        buffer.make_undefined();
        self.calls += 1;
        let length = nexus_write(held.slice(), buffer.slice(), &mut number.slice()[0]);
        let number_now = number.slice()[0];
        let written = length.min(room);
        held.open_behind(record.len());
        buffer.open_behind(written);
        number.open_behind(1);

        let given = Given {
            length,
            number: number_now,
        };
        let expected = full.within(room);
        let mut wrong = wrong(&expected, given, &buffer.slice()[..written]);
        if !buffer.kept_from(written) {
            wrong.push("the buffer behind the form has changed".to_string());
        }
        if held.slice() != record {
            wrong.push("the record has changed".to_string());
        }
        wrong.extend(buffer.changed_beside("the buffer"));
        wrong.extend(number.changed_beside("the number"));
        wrong.extend(held.changed_beside("the record"));
        let call = || format!("write with a buffer of {room} bytes, {rubbish:?}");
        judged(call, || words(&expected), given, wrong)
    }
}

/// What is wrong in an answer, and in the bytes that it says are the form's.
fn wrong(expected: &Answer, given: Given, bytes: &[u8]) -> Vec<String> {
    let (length, number, form) = match expected {
        Answer::Bytes(form) => (form.len(), 0, form.as_slice()),
        Answer::Refused(refusal) => (0, refusal.number, &[][..]),
        Answer::Beyond(_) => unreachable!("no record is beyond the oracle"),
    };
    let mut wrong = Vec::new();
    if given != (Given { length, number }) {
        wrong.push("the answer is another".to_string());
    }
    if bytes != form {
        wrong.push(format!("the form is another: {}", shown(bytes)));
    }
    wrong
}
