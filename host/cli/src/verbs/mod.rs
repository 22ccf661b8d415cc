//! The verbs: one file for each, and the table of them.

mod check;
mod explain;
mod lookup;
mod read;
mod show;
mod write;

use std::ffi::OsStr;

use crate::args::Asked;
use crate::near::nearest;
use crate::session::{Session, Stop};
use crate::width;

/// A verb: what its help says, and what it does.
pub struct Verb {
    /// The word for it.
    pub name: &'static str,
    /// Its operands, as the help has them.
    pub operands: &'static str,
    /// What it does, in a few words.
    pub about: &'static str,
    /// What else there is to say.
    pub more: &'static str,
    /// Its options.
    pub flags: &'static [Flag],
    /// How it is used, with what it prints.
    pub example: &'static str,
    /// Does it make a call of the archive?
    pub needs_archive: bool,
    /// What it does.
    pub run: fn(&Asked, &mut Session) -> Result<(), Stop>,
}

/// An option of a verb.
pub struct Flag {
    /// Its name, with both dashes.
    pub name: &'static str,
    /// The word for its value, where it has one.
    pub value: Option<&'static str>,
    /// What it does, in a few words.
    pub about: &'static str,
}

/// How results are printed.
const FORMAT: Flag = Flag {
    name: "--format",
    value: Some("FORMAT"),
    about: "text, or json: an object on each line",
};

/// All verbs, in the order of the help.
pub fn all() -> impl Iterator<Item = &'static Verb> {
    [
        &read::VERB,
        &write::VERB,
        &lookup::VERB,
        &check::VERB,
        &show::VERB,
        &explain::VERB,
    ]
    .into_iter()
}

/// The verb of this name.
pub fn named(name: &OsStr) -> Result<&'static Verb, Stop> {
    let name = name.to_string_lossy();
    all().find(|verb| verb.name == name).ok_or_else(|| {
        let near = match nearest(&name, all().map(|verb| verb.name)) {
            Some(near) => format!("; is {near} meant?"),
            None => String::new(),
        };
        Stop::wrong(&format!("no verb {}{near}", width::safe(&name)), None)
    })
}
