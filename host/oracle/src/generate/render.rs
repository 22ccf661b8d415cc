//! A draft becomes a text: blanks, newlines and comments between its pieces.

use super::draft::{Draft, Piece, piece};
use super::rng::Rng;

const BLANKS: &[&str] = &[
    "\t", "\u{b}", "\u{c}", "\u{85}", "\u{a0}", "\u{1680}", "\u{2000}", "\u{2001}", "\u{2002}",
    "\u{2003}", "\u{2004}", "\u{2005}", "\u{2006}", "\u{2007}", "\u{2008}", "\u{2009}", "\u{200a}",
    "\u{2028}", "\u{2029}", "\u{202f}", "\u{205f}", "\u{3000}", "  ", " ", "   ",
];

const COMMENTS: &[&str] = &[
    "[]",
    "[x]",
    "[a b]",
    "[;]",
    "[']",
    "[\"]",
    "[a[b]c]",
    "[[[]]]",
    "[\n]",
    "[x\r\ny]",
    "[é]",
    "[END;]",
    "[\u{feff}]",
    "[,]",
    "[=]",
    "[[\r]\r]",
];

/// How often what stands between the pieces, in percent.
struct Style {
    newline: &'static str,
    mixed_newlines: bool,
    loose: usize,
    blanks: usize,
    comments: usize,
    newlines: usize,
}

fn style(rng: &mut Rng) -> Style {
    let wild = rng.percent(25);
    Style {
        newline: rng.choose(&["\n", "\n", "\n", "\r\n", "\r"]),
        mixed_newlines: rng.percent(10),
        loose: rng.choose(&[0, 10, 30]),
        blanks: if wild { 25 } else { 0 },
        comments: if wild { 6 } else { rng.choose(&[0, 0, 0, 1]) },
        newlines: if wild { 15 } else { 2 },
    }
}

impl Style {
    fn newline(&self, rng: &mut Rng) -> &'static str {
        if self.mixed_newlines {
            return rng.choose(&["\n", "\r\n", "\r", "\n\n", "\r\r\n", "\n\r"]);
        }
        self.newline
    }

    /// What stands before a piece; `needed` if it would join the one before it.
    fn gap(&self, rng: &mut Rng, needed: bool, fixed: bool) -> String {
        let mut gap = String::new();
        if needed || rng.percent(self.loose) {
            gap.push_str(match rng.below(100) {
                n if n < self.newlines && !fixed => self.newline(rng),
                n if n < self.newlines + self.blanks => rng.pick(BLANKS),
                _ => " ",
            });
        }
        if rng.percent(self.comments) {
            let comment = rng.pick(COMMENTS);
            if rng.percent(50) {
                gap.push_str(comment);
            } else {
                gap.insert_str(0, comment);
            }
        }
        gap
    }

    /// The piece, now and then with a comment inside one of its words.
    fn piece(&self, rng: &mut Rng, text: &str) -> String {
        if !rng.percent(self.comments) || text.starts_with(['\'', '"']) {
            return text.to_string();
        }
        let at = rng.below(text.len() + 1);
        if !text.is_char_boundary(at) || at == 0 {
            return text.to_string();
        }
        format!("{}{}{}", &text[..at], rng.pick(COMMENTS), &text[at..])
    }
}

/// Whether two characters side by side would become one token, or one quoted text.
fn join(left: char, right: char) -> bool {
    let ends = |c: char| c.is_whitespace() || "(){}]/\\,;:=*`<>^+'\"".contains(c);
    !ends(left) && !ends(right) || left == '\'' && right == '\''
}

/// The text of a draft.
pub fn render(rng: &mut Rng, draft: &Draft) -> String {
    let style = style(rng);
    let mut out = String::new();
    if rng.percent(3) {
        out.push('\u{feff}');
    }
    if rng.percent(5) {
        out.push_str(&style.gap(rng, true, false));
    }
    let mut writer = Writer {
        style: &style,
        out,
        last: None,
    };
    writer.pieces(rng, &draft.head);
    for command in &draft.commands {
        writer.pieces(rng, command);
        writer.pieces(rng, &[piece(";")]);
    }
    writer.pieces(rng, &draft.tail);
    let mut out = writer.out;
    if rng.percent(60) {
        out.push_str(style.newline(rng));
    }
    out
}

struct Writer<'a> {
    style: &'a Style,
    out: String,
    /// The last character of the piece before.
    last: Option<char>,
}

impl Writer<'_> {
    fn pieces(&mut self, rng: &mut Rng, pieces: &[Piece]) {
        for piece in pieces {
            self.piece(rng, piece);
        }
    }

    fn piece(&mut self, rng: &mut Rng, piece: &Piece) {
        let Some(first) = piece.text.chars().next() else {
            return;
        };
        if piece.text == "\n" {
            self.line(rng);
        } else {
            let needed = self.last.is_some_and(|last| join(last, first));
            let breaks = self.last == Some(';') || piece.row && !piece.fixed;
            let gap = if breaks && rng.percent(60) {
                self.style.newline(rng).to_string()
            } else {
                self.style.gap(rng, needed, piece.fixed)
            };
            self.out.push_str(&gap);
            self.out.push_str(&self.style.piece(rng, &piece.text));
        }
        self.last = piece.text.chars().last();
    }

    /// A newline between interleaved rows, now and then with lines that hold no token.
    fn line(&mut self, rng: &mut Rng) {
        self.out.push_str(self.style.newline(rng));
        if rng.percent(10) {
            self.out.push_str(rng.pick(&["", " ", "[x]", "\t[\n]"]));
            self.out.push_str(self.style.newline(rng));
        }
    }
}
