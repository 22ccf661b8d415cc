//! The help that is printed. It is made of the table of verbs.

use crate::verbs::{self, Flag, Verb};
use crate::width;

/// What stands behind the verbs.
const STATUS: &str = "\
Exit status:
  0  done: nothing was refused, and every file could be read
  1  a text, record or name was refused
  2  wrong use, or a file that cannot be read or written, and nothing refused
";

/// The options that every verb has.
pub const COMMON: [Flag; 1] = [Flag {
    name: "--help",
    value: None,
    about: "say how the verb is used",
}];

/// The help of the command, in so many columns.
pub fn whole(columns: usize) -> String {
    let mut help = String::from(
        "nexus reads NEXUS files by a reader that is proved.\n\n\
        Usage: nexus VERB [OPTION].. OPERAND..\n\nVerbs:\n",
    );
    for verb in verbs::all() {
        let usage = format!("{} {}", verb.name, verb.operands);
        help.push_str(&format!("  {usage:<20} {}\n", verb.about));
    }
    let more = "\
        A file `-` is standard input. Results go to standard output, messages to standard \
        error. `nexus VERB --help` says more of a verb; `nexus --version` prints the version.";
    let more = paragraphs(more, columns);
    help.push_str(&format!(
        "\n{more}\n{STATUS}\nExample:\n  $ nexus check incoming/\n"
    ));
    help
}

/// The help of a verb, in so many columns.
pub fn of(verb: &Verb, columns: usize) -> String {
    let mut help = format!(
        "nexus {}: {}\n\nUsage: nexus {} [OPTION].. {}\n\n{}\nOptions:\n",
        verb.name,
        verb.about,
        verb.name,
        verb.operands,
        paragraphs(verb.more, columns)
    );
    for flag in verb.flags.iter().chain(&COMMON) {
        let usage = match flag.value {
            Some(value) => format!("{} {value}", flag.name),
            None => flag.name.to_string(),
        };
        help.push_str(&format!("  {usage:<16} {}\n", flag.about));
    }
    help.push_str(&format!("\n{STATUS}\nExample:\n"));
    for line in verb.example.lines() {
        help.push_str(&format!("  {line}\n"));
    }
    help
}

/// Paragraphs, which stand apart by an empty line, each in lines of so many columns.
fn paragraphs(text: &str, columns: usize) -> String {
    let paragraphs = text.split("\n\n");
    let filled = paragraphs.map(|paragraph| width::filled(paragraph, columns).join("\n") + "\n");
    filled.collect::<Vec<String>>().join("\n")
}

/// The command's name and version.
pub fn version() -> String {
    format!("nexus {}\n", env!("CARGO_PKG_VERSION"))
}
