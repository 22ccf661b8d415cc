//! The command `nexus`: one file for each verb, and what they share. Results go to standard output,
//! messages to standard error.
#![forbid(unsafe_code)]
#![warn(missing_docs)]

pub mod args;
pub mod diagnostics;
pub mod files;
pub mod help;
pub mod json;
pub mod near;
pub mod output;
pub mod progress;
pub mod session;
pub mod terminal;
pub mod verbs;
pub mod width;

use std::ffi::OsString;
use std::process::ExitCode;

use args::Asked;
use session::{Session, Stop};

/// Does what the arguments ask for; the status to exit with.
pub fn run(arguments: Vec<OsString>) -> ExitCode {
    let mut session = Session::new();
    let done = answer(&arguments, &mut session);
    session.end(done)
}

fn answer(arguments: &[OsString], session: &mut Session) -> Result<(), Stop> {
    let Some((first, rest)) = arguments.split_first() else {
        return Err(Stop::wrong("a verb is missing", None));
    };
    let columns = session.screen.columns().min(80);
    match first.to_str() {
        Some("--help" | "-h") => return session.result(help::whole(columns).as_bytes()),
        Some("--version" | "-V") => return session.result(help::version().as_bytes()),
        _ => {}
    }
    let verb = verbs::named(first)?;
    let asked = Asked::parse(verb, rest)?;
    if asked.help {
        return session.result(help::of(verb, columns).as_bytes());
    }
    if verb.needs_archive && !nexus::archive::LINKED {
        return Err(Stop::Failed(nexus::archive::NOT_LINKED.to_string()));
    }
    session.format = asked.format(verb.name)?;
    (verb.run)(&asked, session)
}
