//! `nexus lookup`: the cells of a taxon in a record.

use std::os::unix::ffi::OsStrExt;

use nexus::{Refusal, View};

use super::{FORMAT, Verb};
use crate::args::{Asked, Format};
use crate::diagnostics::Refused;
use crate::files::Source;
use crate::json::{Cells, Object};
use crate::near::nearest;
use crate::session::{Session, Stop};
use crate::width;

/// The verb.
pub static VERB: Verb = Verb {
    name: "lookup",
    operands: "RECORD NAME",
    about: "print the cells of a taxon in a record",
    more: "\
The cells are printed as the record has them, parted by blanks: a state's number, counting from 0;
`u` and numbers joined by dots where it is one of them; `p` and numbers where it is all of them; `m`
missing; `g` a gap. The name is that of the record, so it has a blank where a NEXUS file may have
`_`; the case of ASCII letters does not matter. A name that begins with a dash stands behind `--`.

With --format json there is an object on a line: `file`, `status` (found, refused or unreadable),
`name`, and `cells`.",
    flags: &[FORMAT],
    example: "\
$ nexus lookup primates.record 'Homo sapiens'
0 1 u0.1 m",
    needs_archive: true,
    run,
};

fn run(asked: &Asked, session: &mut Session) -> Result<(), Stop> {
    let [operand, name] = asked.exactly(&VERB)?;
    let source = Source::of(operand);
    let record = match source.whole() {
        Ok(record) => record,
        Err(error) => return session.unreadable(&source, &error),
    };
    let view = View::of(&record);
    match view.and_then(|view| view.find(name.as_bytes())) {
        Ok(cells) => found(&source, &name.to_string_lossy(), cells, session),
        Err(refusal) if refusal.number == Refusal::NO_NAME => {
            let name = name.to_string_lossy();
            let shown = format!("{}, name \"{}\"", source.name(), width::safe(&name));
            let refused = Refused {
                name: &shown,
                text: &record,
                refusal,
            };
            let hint = view.ok().and_then(|view| meant(view, &name));
            session.show(&source, &refused, hint)
        }
        Err(refusal) => session.refuse(&source, &record, refusal),
    }
}

/// Prints the cells.
fn found(
    source: &Source,
    name: &str,
    cells: nexus::Cells<'_>,
    session: &mut Session,
) -> Result<(), Stop> {
    match session.format {
        Format::Text => {
            session.result(cells.as_bytes())?;
            session.result(b"\n")
        }
        Format::Json => {
            let object = Object::new().text("file", &source.operand());
            let object = object.text("status", "found").text("name", name);
            session.line(&object.value("cells", Cells(cells)))
        }
    }
}

/// The name that may be meant.
fn meant(view: View<'_>, name: &str) -> Option<String> {
    let plain = name.trim_matches('\'').replace("''", "'").replace('_', " ");
    if view.find(plain.as_bytes()).is_ok() {
        let plain = width::safe(&plain);
        return Some(format!(
            "a record has no quotes about a name, and blanks for `_`: \"{plain}\" is there"
        ));
    }
    let names: Vec<String> = view.taxa().map(|taxon| taxon.name().to_string()).collect();
    let near = nearest(name, names.iter().map(String::as_str))?;
    Some(format!("is \"{}\" meant?", width::safe(near)))
}
