//! A file of chosen questions, in lines:
//!
//! - `# ...` says something; the lines before anything else say what the file is about.
//! - `let NAME TEXT` names a text or record for later lines.
//! - `- ...` says what the question in the next line shows.
//! - `read TEXT`, `write TEXT` or `lookup `NAME` in TEXT` is a question. `read-full` and
//!   `write-full` lend a buffer of the answer's length, `read-short` and `write-short` one byte
//!   less, and `read-little-work` lends one number of work memory too few.
//!
//! A TEXT is `= ...`, spelled out; or the name of one; or `NAME with ...`, which stands in the
//! place of its `@`; or `NAME but A => B`, with B in the place of A.

use std::collections::BTreeMap;

use super::spelled::bytes;

#[derive(Debug, Eq, PartialEq)]
pub struct File {
    /// What the file is about, a line each.
    pub about: Vec<String>,
    pub asked: Vec<Asked>,
}

/// A question, and what it shows.
#[derive(Debug, Eq, PartialEq)]
pub struct Asked {
    pub shows: String,
    pub call: Call,
}

#[derive(Debug, Eq, PartialEq)]
pub enum Call {
    Read {
        lent: Lent,
        little_work: bool,
        text: Vec<u8>,
    },
    Write {
        lent: Lent,
        record: Vec<u8>,
    },
    Lookup {
        name: Vec<u8>,
        record: Vec<u8>,
    },
}

/// The buffer beside the answer.
#[derive(Clone, Copy, Debug, Eq, PartialEq)]
pub enum Lent {
    OneMore,
    Full,
    OneShort,
}

/// The questions of a file, or the line that is none of the above.
pub fn parse(text: &str) -> Result<File, String> {
    let mut reader = Reader::default();
    for (number, line) in text.lines().enumerate() {
        let taken = reader.line(line);
        taken.map_err(|error| format!("line {}: {error}", number + 1))?;
    }
    match reader.shows {
        Some(shows) => Err(format!("no question shows: {shows}")),
        None => Ok(reader.file),
    }
}

struct Reader {
    file: File,
    named: BTreeMap<String, String>,
    /// What the next question shows.
    shows: Option<String>,
    /// Whether the file has only said what it is about.
    opening: bool,
}

impl Default for Reader {
    fn default() -> Self {
        let (about, asked) = (Vec::new(), Vec::new());
        Self {
            file: File { about, asked },
            named: BTreeMap::new(),
            shows: None,
            opening: true,
        }
    }
}

impl Reader {
    fn line(&mut self, line: &str) -> Result<(), String> {
        if let Some(said) = line.strip_prefix("# ") {
            if self.opening {
                self.file.about.push(said.to_string());
            }
            return Ok(());
        }
        self.opening = false;
        if let Some(shows) = line.strip_prefix("- ") {
            return match self.shows.replace(shows.to_string()) {
                Some(earlier) => Err(format!("no question shows: {earlier}")),
                None => Ok(()),
            };
        }
        match line.split_once(' ') {
            None if line.is_empty() => Ok(()),
            None => Err(format!("{line} says nothing")),
            Some(("let", rest)) => self.name(rest),
            Some((verb, rest)) => self.ask(verb, rest),
        }
    }

    fn name(&mut self, rest: &str) -> Result<(), String> {
        let (name, text) = rest.split_once(' ').ok_or("let needs a name and a text")?;
        let spelled = self.spelled(text)?;
        match self.named.insert(name.to_string(), spelled) {
            Some(_) => Err(format!("{name} is named twice")),
            None => Ok(()),
        }
    }

    fn ask(&mut self, verb: &str, rest: &str) -> Result<(), String> {
        let call = self.call(verb, rest)?;
        let shows = self.shows.take().ok_or("nothing says what this shows")?;
        self.file.asked.push(Asked { shows, call });
        Ok(())
    }

    fn call(&self, verb: &str, rest: &str) -> Result<Call, String> {
        if verb == "lookup" {
            let quoted = rest.strip_prefix('`').and_then(|r| r.split_once("` in "));
            let (name, text) = quoted.ok_or("lookup needs a name in backquotes, in a text")?;
            let (name, record) = (bytes(name)?, bytes(&self.spelled(text)?)?);
            return Ok(Call::Lookup { name, record });
        }
        let (call, how) = verb.split_once('-').unwrap_or((verb, ""));
        let lent = match how {
            "" | "little-work" => Lent::OneMore,
            "full" => Lent::Full,
            "short" => Lent::OneShort,
            _ => return Err(format!("{verb} is not known")),
        };
        let little_work = how == "little-work";
        let asked = bytes(&self.spelled(rest)?)?;
        match call {
            "read" => Ok(Call::Read {
                lent,
                little_work,
                text: asked,
            }),
            "write" if !little_work => Ok(Call::Write {
                lent,
                record: asked,
            }),
            _ => Err(format!("{verb} is not known")),
        }
    }

    /// A TEXT, its escapes as they are.
    fn spelled(&self, text: &str) -> Result<String, String> {
        if let Some(whole) = text.strip_prefix("= ") {
            return Ok(whole.to_string());
        }
        let (name, change) = text.split_once(' ').unwrap_or((text, ""));
        let base = self.named.get(name);
        let base = base.ok_or(format!("{name} names no text"))?;
        let (old, new) = match change.split_once(' ') {
            None if change.is_empty() => return Ok(base.clone()),
            Some(("with", new)) => ("@", new),
            Some(("but", change)) => change.split_once(" => ").ok_or("but needs A => B")?,
            _ => return Err(format!("{change} is no change")),
        };
        match base.matches(old).count() {
            1 => Ok(base.replace(old, new)),
            count => Err(format!("{name} has {old} {count} times")),
        }
    }
}

#[cfg(test)]
mod tests {
    use super::*;

    const FILE: &str = "\
# About
# this.

# More.
let a = x@y\\n
- one
read a with \\x41
let b a but x => z
- two
write-short b but @ => q
- three
lookup `n m` in = r
- four
read-little-work b
";

    #[test]
    fn a_file_is_read() {
        let file = parse(FILE).expect("a file");
        assert_eq!(file.about, ["About", "this."]);
        let calls: Vec<&Call> = file.asked.iter().map(|asked| &asked.call).collect();
        let read = |little_work, text: &[u8]| Call::Read {
            lent: Lent::OneMore,
            little_work,
            text: text.to_vec(),
        };
        let write = Call::Write {
            lent: Lent::OneShort,
            record: b"zqy\n".to_vec(),
        };
        let (name, record) = (b"n m".to_vec(), b"r".to_vec());
        let lookup = Call::Lookup { name, record };
        let expected = [read(false, b"xAy\n"), write, lookup, read(true, b"z@y\n")];
        assert_eq!(calls, expected.iter().collect::<Vec<_>>());
        assert_eq!(file.asked[1].shows, "two");
    }

    #[test]
    fn wrong_lines_are_named() {
        for (text, error) in [
            ("read = x", "line 1: nothing says what this shows"),
            ("- a\n- b", "line 2: no question shows: a"),
            ("- a", "no question shows: a"),
            ("- a\nread x", "line 2: x names no text"),
            ("- a\nread-long = x", "line 2: read-long is not known"),
            (
                "- a\nwrite-little-work = x",
                "line 2: write-little-work is not known",
            ),
            ("let a = @@\n- b\nread a with c", "line 3: a has @ 2 times"),
            ("let a = x\nlet a = y", "line 2: a is named twice"),
            ("word", "line 1: word says nothing"),
        ] {
            assert_eq!(parse(text).expect_err(text), error);
        }
    }
}
