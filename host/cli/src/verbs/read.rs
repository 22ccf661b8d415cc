//! `nexus read`: the records of NEXUS files.

use std::io::Write;
use std::path::PathBuf;

use nexus::{Reader, View};

use super::{FORMAT, Flag, Verb};
use crate::args::{Asked, Format};
use crate::files::{self, Source};
use crate::json::{self, Quoted};
use crate::output::{Folder, write_whole};
use crate::session::{Session, Stop, unwritten};

/// The verb.
pub static VERB: Verb = Verb {
    name: "read",
    operands: "FILE..",
    about: "print the records of NEXUS files",
    more: "\
A record has lines `key=value`: the data type, the counts and the symbols, then each taxon's name
and cells, then each character's label, type and state labels. A file that is refused is shown with
its fault; the others are read all the same.

With --out each record is a file of its own in DIR, which is made where it is not there. Its name is
that of its file with `.record` behind it (`.json` with --format json; `stdin.record` for `-`). It
is written whole or not at all, in place of one that was there before, but never over a file that is
read. Of two files of one name the first is read, and the other is named as left out.

With --format json there is an object on a line for each file: `file`, `status` (read, refused or
unreadable), and `record`, or else the refusal's `number`, `line`, `column` and `message`.",
    flags: &[
        Flag {
            name: "--out",
            value: Some("DIR"),
            about: "write each record to a file in this folder",
        },
        FORMAT,
    ],
    example: "\
$ nexus read primates.nex > primates.record
$ nexus read --out records *.nex",
    needs_archive: true,
    run,
};

fn run(asked: &Asked, session: &mut Session) -> Result<(), Stop> {
    let sources = files::sources(asked.some(&VERB)?, VERB.name)?;
    let ending = match session.format {
        Format::Text => ".record",
        Format::Json => ".json",
    };
    let folder = asked.value("--out");
    let mut folder = folder
        .map(|path| Folder::open(path, ending, &sources))
        .transpose()?;
    let mut lent = Lent::default();
    for source in &sources {
        let target = folder.as_mut().map(|folder| folder.claim(source));
        match target.transpose() {
            Ok(target) => lent.read_one(source, target, session)?,
            Err(message) => session.failed(&message)?,
        }
    }
    Ok(())
}

/// The memory that is lent to one file after another.
#[derive(Default)]
struct Lent {
    text: Vec<u8>,
    reader: Reader,
}

impl Lent {
    /// Reads one file, and writes its record to a file or to standard output.
    fn read_one(
        &mut self,
        source: &Source,
        target: Option<PathBuf>,
        session: &mut Session,
    ) -> Result<(), Stop> {
        if let Err(error) = source.load_text(&mut self.text) {
            return session.unreadable(source, &error);
        }
        let record = match self.reader.read(&self.text) {
            Ok(record) => record,
            Err(refusal) => return session.refuse(source, &self.text, refusal),
        };
        let format = session.format;
        let Some(target) = target else {
            return put(record, source, format, session.out()).map_err(unwritten);
        };
        let mut bytes = Vec::new();
        put(record, source, format, &mut bytes).map_err(unwritten)?;
        match write_whole(&target, &bytes) {
            Ok(()) => Ok(()),
            Err(message) => session.failed(&message),
        }
    }
}

fn put(
    record: View<'_>,
    source: &Source,
    format: Format,
    out: &mut dyn Write,
) -> std::io::Result<()> {
    match format {
        Format::Text => out.write_all(record.as_bytes()),
        Format::Json => writeln!(
            out,
            "{{\"file\":{},\"status\":\"read\",\"record\":{}}}",
            Quoted(&source.operand()),
            json::Record(record)
        ),
    }
}
