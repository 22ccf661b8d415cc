//! The arguments of a verb: its options, and its operands.

use std::ffi::{OsStr, OsString};
use std::os::unix::ffi::OsStrExt;

use crate::session::Stop;
use crate::verbs::{Flag, Verb};

/// What was asked of a verb.
#[derive(Debug, Default)]
pub struct Asked {
    /// The arguments that are no options, as they came.
    pub operands: Vec<OsString>,
    /// Was its help asked for?
    pub help: bool,
    given: Vec<(&'static str, Option<OsString>)>,
}

/// How results are printed.
#[derive(Clone, Copy, Debug, Eq, PartialEq)]
pub enum Format {
    /// For people.
    Text,
    /// For programs: an object of JSON on each line.
    Json,
}

impl Asked {
    /// The arguments behind the verb. Options stand anywhere; behind `--` there are none.
    pub fn parse(verb: &'static Verb, arguments: &[OsString]) -> Result<Self, Stop> {
        let mut asked = Self::default();
        let mut rest = arguments.iter();
        while let Some(argument) = rest.next() {
            match argument.to_str() {
                Some("--") => {
                    asked.operands.extend(rest.by_ref().cloned());
                }
                Some("--help" | "-h") => asked.help = true,
                _ if is_option(argument) => asked.take_option(verb, argument, &mut rest)?,
                _ => asked.operands.push(argument.clone()),
            }
        }
        Ok(asked)
    }

    /// An option, with the argument behind it where it has a value and no `=`.
    fn take_option<'a>(
        &mut self,
        verb: &'static Verb,
        argument: &OsStr,
        rest: &mut impl Iterator<Item = &'a OsString>,
    ) -> Result<(), Stop> {
        let wrong = |message: String| Stop::wrong(&message, Some(verb.name));
        let (name, joined) = split(argument);
        let Some(flag) = verb.flags.iter().find(|flag| flag.name == name) else {
            return Err(wrong(unknown(&name, verb)));
        };
        let value = match (flag.value, joined) {
            (None, None) => None,
            (None, Some(_)) => return Err(wrong(format!("{name} takes no value"))),
            (Some(_), Some(value)) => Some(value),
            (Some(value), None) => match rest.next() {
                Some(next) => Some(next.clone()),
                None => return Err(wrong(format!("{name} needs {value} behind it"))),
            },
        };
        if self.has(flag.name) {
            return Err(wrong(format!("{name} is given twice")));
        }
        self.given.push((flag.name, value));
        Ok(())
    }

    /// Was the option given?
    pub fn has(&self, name: &str) -> bool {
        self.given.iter().any(|(given, _)| *given == name)
    }

    /// The option's value, where it was given.
    pub fn value(&self, name: &str) -> Option<&OsStr> {
        let mut given = self.given.iter().filter(|(given, _)| *given == name);
        given.next().and_then(|(_, value)| value.as_deref())
    }

    /// The value of `--format`, which is text where it was not given.
    pub fn format(&self, verb: &str) -> Result<Format, Stop> {
        match self.value("--format").map(OsStr::to_str) {
            None | Some(Some("text")) => Ok(Format::Text),
            Some(Some("json")) => Ok(Format::Json),
            Some(_) => Err(Stop::wrong("--format is text or json", Some(verb))),
        }
    }

    /// The value of an option that is a number from 1 on.
    pub fn number(&self, name: &str, verb: &str) -> Result<Option<usize>, Stop> {
        let Some(value) = self.value(name) else {
            return Ok(None);
        };
        match value.to_str().and_then(|value| value.parse().ok()) {
            Some(number) if number > 0 => Ok(Some(number)),
            _ => {
                let message = format!("{name} needs a number from 1 on");
                Err(Stop::wrong(&message, Some(verb)))
            }
        }
    }

    /// The operands, where there are just so many of them.
    pub fn exactly<const N: usize>(&self, verb: &Verb) -> Result<[&OsStr; N], Stop> {
        let operands: Vec<&OsStr> = self.operands.iter().map(OsString::as_os_str).collect();
        operands.try_into().map_err(|given: Vec<_>| {
            let needed = verb.operands;
            let message = format!(
                "{} takes {needed}; {} given",
                verb.name,
                counted(given.len())
            );
            Stop::wrong(&message, Some(verb.name))
        })
    }

    /// The operands, where there is one at least.
    pub fn some(&self, verb: &Verb) -> Result<&[OsString], Stop> {
        match self.operands.len() {
            0 => {
                let message = format!("{} needs a file", verb.name);
                Err(Stop::wrong(&message, Some(verb.name)))
            }
            _ => Ok(&self.operands),
        }
    }
}

/// A lone `-` is standard input, and no option.
fn is_option(argument: &OsStr) -> bool {
    let bytes = argument.as_bytes();
    bytes.len() > 1 && bytes[0] == b'-'
}

/// The option's name, and the value that is joined to it by `=`.
fn split(argument: &OsStr) -> (String, Option<OsString>) {
    let mut parts = argument.as_bytes().splitn(2, |byte| *byte == b'=');
    let name = parts.next().unwrap_or_default();
    let value = parts
        .next()
        .map(|value| OsStr::from_bytes(value).to_os_string());
    (String::from_utf8_lossy(name).into_owned(), value)
}

fn unknown(name: &str, verb: &Verb) -> String {
    let names = verb.flags.iter().map(|flag: &Flag| flag.name);
    let near = match crate::near::nearest(name, names.chain(["--help"])) {
        Some(near) => format!("; is {near} meant?"),
        None => String::new(),
    };
    let shown = crate::width::safe(name);
    format!("{} has no option {shown}{near}", verb.name)
}

fn counted(given: usize) -> String {
    match given {
        0 => "none is".to_string(),
        1 => "one is".to_string(),
        n => format!("{n} are"),
    }
}
