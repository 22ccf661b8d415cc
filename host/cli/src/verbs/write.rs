//! `nexus write`: the NEXUS text of a record.

use nexus::TEXT_LIMIT;

use super::Verb;
use crate::args::Asked;
use crate::files::Source;
use crate::session::{Session, Stop};

/// The verb.
pub static VERB: Verb = Verb {
    name: "write",
    operands: "RECORD",
    about: "print the NEXUS text of a record",
    more: "\
The text says what the record says, and reading it gives the same record again, byte for byte. Two
records have the same text exactly where they are the same.",
    flags: &[],
    example: "\
$ nexus write primates.record > tidy.nex
$ nexus read primates.nex | nexus write - > tidy.nex",
    needs_archive: true,
    run,
};

fn run(asked: &Asked, session: &mut Session) -> Result<(), Stop> {
    let [operand] = asked.exactly(&VERB)?;
    let source = Source::of(operand);
    let record = match source.whole() {
        Ok(record) => record,
        Err(error) => return session.unreadable(&source, &error),
    };
    // No form is longer than the longest text.
    let mut buffer = vec![0; TEXT_LIMIT];
    match nexus::write_into(&record, &mut buffer) {
        Ok(length) => session.result(&buffer[..length]),
        Err(refusal) => session.refuse(&source, &record, refusal),
    }
}
