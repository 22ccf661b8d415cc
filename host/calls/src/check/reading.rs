//! The check of one text.

use nexus::{longest_record, work_needed};
use oracle::answer::{self, Answer, ENOUGH, Refusal};

use super::difference::{compared, judged, shown, words};
use super::{Checker, Difference, Met};
use crate::lent::{Lent, Rubbish};

/// How many numbers of work memory and bytes of a buffer a call is lent.
#[derive(Clone, Copy, Debug)]
struct Lengths {
    work: usize,
    buffer: usize,
}

/// What a call has answered.
#[derive(Clone, Copy, Debug, Eq, PartialEq)]
struct Given {
    length: usize,
    number: u32,
    line: usize,
    column: usize,
}

/// The three numbers that a call is lent, each between numbers that it is not.
struct Numbers {
    number: Lent<u32>,
    line: Lent<usize>,
    column: Lent<usize>,
}

impl Numbers {
    fn new(rubbish: Rubbish) -> Self {
        Self {
            number: Lent::one(rubbish),
            line: Lent::one(rubbish),
            column: Lent::one(rubbish),
        }
    }

    /// They may be read again, once the call is made.
    fn open(&self) {
        self.number.open_behind(1);
        self.line.open_behind(1);
        self.column.open_behind(1);
    }

    /// What has changed beside them, in words.
    fn changed_beside(&self) -> Vec<String> {
        let number = self.number.changed_beside("the number");
        let line = self.line.changed_beside("the line");
        [number, line, self.column.changed_beside("the column")].concat()
    }
}

impl Checker {
    /// All calls for a text, each with two kinds of rubbish: work memory just long enough, longer
    /// and one number short; buffers long enough for any record, so that nothing is measured, long
    /// enough, full, one byte short and empty. Then, if it is read, its record is written, and what is
    /// written read again.
    pub fn check(&mut self, text: &[u8]) -> Result<Met, Difference> {
        let needed = work_needed(text);
        self.check_with(text, |enough| {
            vec![
                (needed, longest_record(text.len())),
                (needed, enough + 9),
                (needed, enough),
                (needed, enough.saturating_sub(1)),
                (needed, 0),
                (needed + 5, enough + 1),
                (needed - 1, enough),
                (needed - 1, 0),
                (0, enough),
            ]
        })
    }

    /// Fewer calls, for texts that take long.
    pub fn check_long(&mut self, text: &[u8]) -> Result<Met, Difference> {
        let needed = work_needed(text);
        self.check_with(text, |enough| {
            let short = enough.saturating_sub(1);
            vec![(needed, enough), (needed, short), (needed - 1, enough)]
        })
    }

    /// The calls for these lengths of work memory and buffer, given what is enough for the record.
    fn check_with(
        &mut self,
        text: &[u8],
        lengths: impl Fn(usize) -> Vec<(usize, usize)>,
    ) -> Result<Met, Difference> {
        let full = answer::read(text, ENOUGH, ENOUGH);
        let (met, enough) = match &full {
            Answer::Bytes(record) => (Met::Taken, record.len()),
            Answer::Refused(refusal) => (Met::Refused(refusal.number), text.len()),
            Answer::Beyond(_) => return Ok(Met::Beyond),
        };
        let rubbish = Rubbish(0x5a17_c0de ^ text.len() as u32);
        for (work, buffer) in lengths(enough) {
            let lengths = Lengths { work, buffer };
            self.call(text, &full, lengths, rubbish)?;
            self.call(text, &full, lengths, rubbish.complement())?;
        }
        self.call_on_left(text, &full, enough)?;
        compared("the plain call that reads", &full, &self.plain_read(text))?;
        if let Answer::Bytes(record) = &full {
            self.check_again(record)?;
        }
        Ok(met)
    }

    /// One call, with rubbish in all memory, and around it.
    fn call(
        &mut self,
        text: &[u8],
        full: &Answer,
        lengths: Lengths,
        rubbish: Rubbish,
    ) -> Result<(), Difference> {
        let shift = self.calls as usize % 8;
        let mut held = Lent::holding(text, shift, rubbish);
        let mut work = Lent::new(lengths.work, 0, rubbish);
        let mut buffer = Lent::new(lengths.buffer, 7 - shift, rubbish);
        held.close_beside();
        work.close_beside();
        work.make_undefined();
        buffer.close_beside();
        buffer.make_undefined();
        let (given, beside) = self.given(held.slice(), work.slice(), buffer.slice(), rubbish);
        let length = given.length.min(lengths.buffer);
        held.open_behind(text.len());
        work.open_behind(0);
        buffer.open_behind(length);

        let expected = expected(text, full, lengths);
        let mut wrong = wrong(&expected, given, &buffer.slice()[..length]);
        if !buffer.kept_from(length) {
            wrong.push("the buffer behind the record has changed".to_string());
        }
        if held.slice() != text {
            wrong.push("the text has changed".to_string());
        }
        wrong.extend(buffer.changed_beside("the buffer"));
        wrong.extend(work.changed_beside("work memory"));
        wrong.extend(held.changed_beside("the text"));
        wrong.extend(beside);
        let call = || format!("{lengths:?}, {rubbish:?}");
        judged(call, || words(&expected), given, wrong)
    }

    /// One call whose work memory is as the last one has left it.
    fn call_on_left(
        &mut self,
        text: &[u8],
        full: &Answer,
        enough: usize,
    ) -> Result<(), Difference> {
        let lengths = Lengths {
            work: work_needed(text),
            buffer: enough,
        };
        let mut left = std::mem::take(&mut self.left);
        left.resize(lengths.work.max(left.len()), 0);
        let mut buffer = vec![0; lengths.buffer];
        let work = &mut left[..lengths.work];
        let (given, beside) = self.given(text, work, &mut buffer, Rubbish(0));
        self.left = left;
        let expected = expected(text, full, lengths);
        let mut wrong = wrong(&expected, given, &buffer[..given.length.min(enough)]);
        wrong.extend(beside);
        let call = || format!("{lengths:?}, work memory as another call has left it");
        judged(call, || words(&expected), given, wrong)
    }

    /// What a call answers, with rubbish in its three numbers, and what has changed beside them.
    fn given(
        &mut self,
        text: &[u8],
        work: &mut [u32],
        buffer: &mut [u8],
        rubbish: Rubbish,
    ) -> (Given, Vec<String>) {
        self.calls += 1;
        let mut numbers = Numbers::new(rubbish);
        let length = (self.read)(
            text,
            work,
            buffer,
            &mut numbers.number.slice()[0],
            &mut numbers.line.slice()[0],
            &mut numbers.column.slice()[0],
        );
        numbers.open();
        let given = Given {
            length,
            number: numbers.number.slice()[0],
            line: numbers.line.slice()[0],
            column: numbers.column.slice()[0],
        };
        (given, numbers.changed_beside())
    }

    /// The call that lends memory itself.
    pub(super) fn plain_read(&mut self, text: &[u8]) -> Answer {
        self.calls += 1;
        match nexus::read(text) {
            Ok(record) => Answer::Bytes(record.into_bytes()),
            Err(refusal) => refused(refusal),
        }
    }
}

/// A refusal, as the oracle has it.
pub(super) fn refused(refusal: nexus::Refusal) -> Answer {
    Answer::Refused(Refusal {
        number: refusal.number,
        line: refusal.line,
        column: refusal.column,
    })
}

/// What the oracle answers to a call with so much memory.
fn expected(text: &[u8], full: &Answer, lengths: Lengths) -> Answer {
    let (work, buffer) = (lengths.work as u64, lengths.buffer as u64);
    match full {
        // These are the answers that need no reading.
        _ if lengths.work < work_needed(text) => answer::read(text, work, buffer),
        Answer::Bytes(record) => answer::within(record.clone(), buffer),
        refused => refused.clone(),
    }
}

/// What is wrong in an answer, and in the bytes that it says are the record's.
fn wrong(expected: &Answer, given: Given, bytes: &[u8]) -> Vec<String> {
    let (right, record) = match expected {
        Answer::Bytes(record) => {
            let right = Given {
                length: record.len(),
                number: 0,
                line: 0,
                column: 0,
            };
            (right, record.as_slice())
        }
        Answer::Refused(refusal) => {
            let right = Given {
                length: 0,
                number: refusal.number,
                line: refusal.line,
                column: refusal.column,
            };
            (right, &[][..])
        }
        Answer::Beyond(_) => unreachable!("the text was not given to the calls"),
    };
    let mut wrong = Vec::new();
    if given != right {
        wrong.push("the answer is another".to_string());
    }
    if bytes != record {
        let escaped = shown(bytes);
        wrong.push(format!("the record is another: {escaped}"));
    }
    wrong
}
