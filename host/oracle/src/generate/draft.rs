//! Texts in pieces, and how names, keywords and numbers are spelled in them.

use super::rng::Rng;

/// One or more tokens as they stand in a text.
#[derive(Clone, Debug)]
pub struct Piece {
    pub text: String,
    /// No newline may be put before it.
    pub fixed: bool,
    /// It is the name at the beginning of a row.
    pub row: bool,
}

pub type Command = Vec<Piece>;

/// A text in pieces. The commands include BEGIN and END; each is closed by a `;`.
#[derive(Clone, Debug)]
pub struct Draft {
    pub head: Vec<Piece>,
    pub commands: Vec<Command>,
    pub tail: Vec<Piece>,
    pub missing: char,
    pub taxa: usize,
    pub characters: usize,
}

pub fn piece(text: impl Into<String>) -> Piece {
    Piece {
        text: text.into(),
        fixed: false,
        row: false,
    }
}

/// Pieces from words and marks that are parted by blanks.
pub fn pieces(text: &str) -> Vec<Piece> {
    text.split(' ')
        .filter(|t| !t.is_empty())
        .map(piece)
        .collect()
}

fn word_character(c: char) -> bool {
    !c.is_whitespace() && !"(){}]/\\,;:=*`<>^+'\"[".contains(c)
}

/// A keyword, its letters in capitals, small or mixed.
pub fn keyword(rng: &mut Rng, word: &str) -> Piece {
    piece(match rng.below(10) {
        0..=6 => word.to_string(),
        7..=8 => word.to_ascii_lowercase(),
        _ => changed_case(rng, word),
    })
}

/// The command that ends a block.
pub fn end(rng: &mut Rng) -> Command {
    let word = if rng.percent(90) { "END" } else { "ENDBLOCK" };
    vec![keyword(rng, word)]
}

/// The text with the case of some ASCII letters changed.
pub fn changed_case(rng: &mut Rng, text: &str) -> String {
    text.chars().map(|c| either_case(rng, c)).collect()
}

pub fn either_case(rng: &mut Rng, c: char) -> char {
    if rng.percent(50) {
        c.to_ascii_uppercase()
    } else {
        c.to_ascii_lowercase()
    }
}

/// A name as a word or in single quotes, so that it is read as this name.
pub fn spelled_name(rng: &mut Rng, name: &str) -> Piece {
    let bare = name.replace(' ', "_");
    if bare.chars().all(word_character) && rng.percent(75) {
        return piece(bare);
    }
    let blank = name.trim().is_empty();
    let mut out = String::from("'");
    let mut characters = name.chars().peekable();
    while let Some(c) = characters.next() {
        match c {
            '\'' => out.push_str("''"),
            ' ' if blank || rng.percent(30) => out.push('_'),
            '\n' if characters.peek() == Some(&'\n') => out.push_str(rng.pick(&["\n", "\r\n"])),
            '\n' => out.push_str(rng.pick(&["\n", "\r", "\r\n"])),
            _ => out.push(c),
        }
    }
    out.push('\'');
    piece(out)
}

/// A positive number in a command: now and then with leading zeros, a sign or quotes.
pub fn spelled_value(rng: &mut Rng, value: usize) -> Piece {
    piece(match rng.below(20) {
        0 => format!("0{value}"),
        1 => format!("'{value}'"),
        2 => format!("\"{value}\""),
        3 => format!("'+{value}'"),
        _ => value.to_string(),
    })
}

pub fn fixed(text: &str) -> Piece {
    Piece {
        fixed: true,
        ..piece(text)
    }
}

impl Draft {
    /// Where the first command with this head stands.
    pub fn find(&self, head: &str) -> Option<usize> {
        let with_head = |command: &Command| command[0].text.eq_ignore_ascii_case(head);
        self.commands.iter().position(with_head)
    }

    pub fn command(&mut self, head: &str) -> &mut Command {
        let at = self.find(head).expect("the command is there");
        &mut self.commands[at]
    }

    /// Where the DATA or CHARACTERS block begins and ends.
    pub fn data_block(&self) -> (usize, usize) {
        let names = ["DATA", "CHARACTERS"];
        let begins = |command: &Command| {
            let name = command.get(1).map_or("", |name| name.text.as_str());
            names.iter().any(|n| n.eq_ignore_ascii_case(name))
        };
        let begin = self.commands.iter().position(begins).expect("a data block");
        (begin, begin + self.block_length(begin) - 1)
    }

    /// The number of commands of the block that begins here.
    pub fn block_length(&self, begin: usize) -> usize {
        let ends = |command: &Command| {
            let word = &command[0].text;
            word.eq_ignore_ascii_case("END") || word.eq_ignore_ascii_case("ENDBLOCK")
        };
        let commands = &self.commands[begin..];
        commands.iter().position(ends).expect("the block ends") + 1
    }

    /// The same text with this command before MATRIX.
    pub fn before_matrix(mut self, command: Command) -> Self {
        let at = self.find("MATRIX").expect("a matrix");
        self.commands.insert(at, command);
        self
    }

    /// The same text without FORMAT, which `command` takes the place of.
    pub fn with_format(mut self, command: &str) -> Self {
        if let Some(at) = self.find("FORMAT") {
            self.commands.remove(at);
        }
        self.before_matrix(pieces(command))
    }

    pub fn with_assumptions(mut self, commands: &[&str]) -> Self {
        self.commands.push(pieces("BEGIN ASSUMPTIONS"));
        self.commands
            .extend(commands.iter().map(|command| pieces(command)));
        self.commands.push(pieces("END"));
        self
    }

    /// The rows of the matrix: where each name stands, and where the row ends.
    pub fn rows(&mut self) -> Vec<(usize, usize)> {
        let matrix = self.command("MATRIX");
        let mut starts: Vec<usize> = (0..matrix.len()).filter(|&i| matrix[i].row).collect();
        let end = matrix.len();
        starts.push(end);
        let lined = |at: usize| at < end && matrix[at - 1].text == "\n";
        let ends = starts.iter().skip(1);
        let ends = ends.map(|&next| if lined(next) { next - 1 } else { next });
        starts.iter().copied().zip(ends).collect()
    }

    /// Where one of the pieces with cells stands in the matrix.
    pub fn some_cells(&mut self, rng: &mut Rng) -> usize {
        let rows = self.rows();
        let (start, end) = rows[rng.below(rows.len())];
        rng.between(start + 1, end - 1)
    }

    /// The same text with other cells in one place.
    pub fn with_cells(mut self, rng: &mut Rng, cells: &str) -> Self {
        let at = self.some_cells(rng);
        self.command("MATRIX")[at].text = cells.into();
        self
    }
}
