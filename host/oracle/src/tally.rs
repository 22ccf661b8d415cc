//! Which call sites of the table of messages a text reaches, and how often many texts do.

use crate::bounds::beyond;
use crate::lexer::{Kind, Token, lex};
use crate::messages::{NO_NAME, TABLE, row_of};
use crate::nexus::{Error, parse};

const NO_HEADER: &str = "expected #NEXUS";

/// The row of the table with this site.
fn named(site: &str) -> usize {
    let row = TABLE.iter().position(|row| row.site == site);
    row.expect("the site is in the table")
}

/// The row of the call site that made this error of this text. Where several sites have one
/// message, the command that holds the error's place tells them apart.
pub fn site(text: &str, error: &Error) -> usize {
    let message = row_of(&error.message)
        .expect("the message is in the table")
        .message;
    let with_message = |row: &usize| TABLE[*row].message == message;
    let rows: Vec<usize> = (0..TABLE.len()).filter(with_message).collect();
    if let [row] = rows[..] {
        return row;
    }
    let tokens = lex(text).expect("no other message has several sites");
    if message == NO_HEADER {
        let empty = tokens.iter().all(|token| token.kind == Kind::Newline);
        return named(if empty { "mod.rs:42" } else { "mod.rs:48" });
    }
    let place = Place::of(&tokens, error).expect("the error is at a token of a command");
    named(match message {
        "TAXLABELS count does not match NTAX" => place.choose("MATRIX", "mod.rs:435", "mod.rs:246"),
        "character label already defined" => place.choose("CHARLABELS", "mod.rs:487", "mod.rs:515"),
        "row for {name:?} exceeds NCHAR={nchar}" => {
            place.by_reader("matrix.rs:60", "matrix.rs:123")
        }
        "duplicate taxon {name:?}" if place.in_command("TAXLABELS") => "mod.rs:163",
        "duplicate taxon {name:?}" => place.by_reader("matrix.rs:42", "matrix.rs:98"),
        NO_NAME => place.label_site(),
        _ => unreachable!("{message} has one call site"),
    })
}

/// Where an error is: the commands of the text up to its own, and its token in that.
struct Place<'a> {
    commands: Vec<Vec<&'a Token>>,
    token: usize,
}

impl<'a> Place<'a> {
    /// None if no token stands there.
    fn of(tokens: &'a [Token], error: &Error) -> Option<Self> {
        let here = |t: &Token| (t.line, t.column) == (error.line, error.column);
        let at = tokens.iter().position(here)?;
        let end = tokens[at..].iter().position(|t| t.punct(';'));
        let end = end.map_or(tokens.len(), |end| at + end);
        let commands = crate::tokens::commands(&tokens[..end]);
        let token = commands.last()?.iter().position(|t| here(t))?;
        Some(Self { commands, token })
    }

    fn command(&self) -> &[&'a Token] {
        self.commands.last().expect("the error's command")
    }

    fn in_command(&self, head: &str) -> bool {
        self.command()[0].is(head)
    }

    fn choose(&self, head: &str, then: &'static str, otherwise: &'static str) -> &'static str {
        if self.in_command(head) {
            then
        } else {
            otherwise
        }
    }

    fn by_reader(&self, sequential: &'static str, interleaved: &'static str) -> &'static str {
        if self.interleaved() {
            interleaved
        } else {
            sequential
        }
    }

    /// Whether the FORMAT of this block, if it has one, asks for interleaved rows.
    fn interleaved(&self) -> bool {
        let block = self.commands.iter().rev().take_while(|c| !c[0].is("BEGIN"));
        let formats = block.filter(|c| c[0].is("FORMAT"));
        formats.into_iter().any(|format| {
            let at = format.iter().position(|t| t.is("INTERLEAVE"));
            at.is_some_and(|at| !format.get(at + 2).is_some_and(|t| t.is("NO")))
        })
    }

    fn label_site(&self) -> &'static str {
        let before = &self.command()[..self.token];
        let entry = before.iter().rev().take_while(|t| !t.punct(','));
        match self.command()[0].text.to_ascii_uppercase().as_str() {
            "TAXLABELS" => "mod.rs:161",
            "CHARLABELS" => "mod.rs:489",
            "CHARSTATELABELS" if self.first_in(entry.count()) => "mod.rs:517",
            "CHARSTATELABELS" | "STATELABELS" => "mod.rs:533",
            "TYPESET" => "assumptions.rs:66",
            _ => self.by_reader("matrix.rs:40", "matrix.rs:95"),
        }
    }

    /// Whether the token is the one after an entry's number. In the first entry the command's
    /// own word stands before that.
    fn first_in(&self, before: usize) -> bool {
        let first_entry = before == self.token;
        before == if first_entry { 2 } else { 1 }
    }
}

/// How often each row of the table was reached, and how many texts were read.
pub struct Tally {
    pub texts: usize,
    pub bytes: usize,
    pub longest: usize,
    pub read: usize,
    pub not_utf8: usize,
    /// Texts that were not given to the reader.
    pub beyond: usize,
    pub rows: Vec<usize>,
}

impl Default for Tally {
    fn default() -> Self {
        Self {
            texts: 0,
            bytes: 0,
            longest: 0,
            read: 0,
            not_utf8: 0,
            beyond: 0,
            rows: vec![0; TABLE.len()],
        }
    }
}

impl Tally {
    pub fn add(&mut self, bytes: &[u8]) {
        self.texts += 1;
        self.bytes += bytes.len();
        self.longest = self.longest.max(bytes.len());
        let Ok(text) = std::str::from_utf8(bytes) else {
            self.not_utf8 += 1;
            return;
        };
        if beyond(text).is_some() {
            self.beyond += 1;
            return;
        }
        match parse(text) {
            Ok(_) => self.read += 1,
            Err(error) => self.count(site(text, &error)),
        }
    }

    fn count(&mut self, row: usize) {
        self.rows[row] += 1;
        let label = named("lexer.rs:39");
        if TABLE[row].message == NO_NAME && row != label {
            self.rows[label] += 1;
        }
    }

    /// A line for each row, and the sums.
    pub fn report(&self) -> String {
        let mut out = String::new();
        for (row, count) in TABLE.iter().zip(&self.rows) {
            out.push_str(&format!(
                "{count:7} {:2} {:18} {}\n",
                row.number, row.site, row.message
            ));
        }
        let texts = self.texts.max(1);
        out.push_str(&format!(
            "texts {}, read {} ({}.{:02} percent), not UTF-8 {}, beyond the reader {}\n",
            self.texts,
            self.read,
            self.read * 100 / texts,
            self.read * 10_000 / texts % 100,
            self.not_utf8,
            self.beyond
        ));
        out.push_str(&format!(
            "bytes on average {}, at most {}\n",
            self.bytes / texts,
            self.longest
        ));
        let least = self.rows.iter().min().copied().unwrap_or(0);
        out.push_str(&format!(
            "rows {}, each reached {least} times or more\n",
            TABLE.len()
        ));
        out
    }
}

#[cfg(test)]
mod tests {
    use super::*;
    use crate::generate;

    /// Whether the token at an error's place is what the table says stands there.
    fn stands(place: &str, tokens: &[Token], error: &Error) -> bool {
        let here = |t: &&Token| (t.line, t.column) == (error.line, error.column);
        let Some(token) = tokens.iter().find(here) else {
            return place == "1,1"
                || ["the opening quote", "the outermost open `[`"].contains(&place);
        };
        if let Some(words) = place.strip_prefix("the word ") {
            let mut words = words.split(" or ").filter(|word| *word != "`+`");
            return words.any(|word| token.is(word)) || place.contains(" that ");
        }
        match place {
            "1,1" => (error.line, error.column) == (1, 1),
            "the command's first token" => place_in_command(tokens, error) == 0,
            "the block's name" => place_in_command(tokens, error) == 1,
            "the `;`" => token.punct(';'),
            "the opening bracket" => token.punct('{') || token.punct('('),
            "the token that is no name" => token.label().is_err(),
            "the quoted token" => matches!(token.kind, Kind::Quoted | Kind::String),
            "the type word" => token.is("ORD") || token.is("UNORD"),
            _ => token.kind != Kind::Newline,
        }
    }

    /// The number of the error's token in its command; the word #NEXUS is no part of one.
    fn place_in_command(tokens: &[Token], error: &Error) -> usize {
        let place = Place::of(tokens, error).expect("a token of a command");
        let first = place.commands.len() == 1;
        place.token - usize::from(first)
    }

    #[test]
    fn errors_are_where_the_table_says() {
        for number in 0..30_000 {
            let text = generate::text(41, number);
            let Ok(text) = std::str::from_utf8(&text) else {
                continue;
            };
            let Err(error) = parse(text) else { continue };
            let place = TABLE[site(text, &error)].place;
            let tokens = lex(text).unwrap_or_default();
            assert!(
                stands(place, &tokens, &error),
                "{place}: {error:?} in {text:?}"
            );
        }
    }
}
