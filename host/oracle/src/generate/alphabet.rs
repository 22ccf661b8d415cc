//! The symbols of a sound text and its FORMAT command.

use super::draft::{Command, Piece, either_case, keyword, piece};
use super::reading::valid_symbols;
use super::rng::Rng;
use crate::data::{Cell, DataType, Matrix};

/// The symbols, missing and gap of a text.
pub struct Alphabet {
    dna: bool,
    symbols: Vec<char>,
    pub missing: char,
    gap: Option<char>,
    respect_case: bool,
}

/// Symbols with which a reading can be written.
pub fn alphabet(rng: &mut Rng, reading: &Matrix) -> Alphabet {
    let symbols = reading.symbols.clone();
    let has_gap = reading.rows.iter().flatten().any(|c| *c == Cell::Gap);
    if reading.data_type == DataType::Dna {
        let missing = rng.choose(&['?', '?', '?', 'N', 'n', '!', '.']);
        let gap = match rng.below(6) {
            0 => '+',
            1 => '#',
            _ => '-',
        };
        return Alphabet {
            dna: true,
            symbols,
            missing,
            gap: Some(gap),
            respect_case: false,
        };
    }
    let respect_case = needs_case(&symbols) || rng.percent(15);
    let clash = |a: &char| {
        let equal = |b: &char| a == b || !respect_case && a.eq_ignore_ascii_case(b);
        symbols.iter().any(equal)
    };
    let mut free = valid_symbols();
    free.retain(|symbol| !clash(symbol));
    rng.shuffle(&mut free);
    let take = |wanted: char, free: &mut Vec<char>| match free.iter().position(|&c| c == wanted) {
        Some(at) => free.remove(at),
        None => free.pop().expect("a symbol is left"),
    };
    let wanted = if rng.percent(85) { '?' } else { ' ' };
    let missing = take(wanted, &mut free);
    if !respect_case {
        free.retain(|c| !c.eq_ignore_ascii_case(&missing));
    }
    let gap = (has_gap || !free.is_empty() && rng.percent(10)).then(|| take('-', &mut free));
    Alphabet {
        dna: false,
        symbols,
        missing,
        gap,
        respect_case,
    }
}

/// Whether these states ask for RESPECTCASE: some differ in case alone, or so many are used
/// that none might be left for missing and gap.
fn needs_case(symbols: &[char]) -> bool {
    let twice = |(i, a): (usize, &char)| symbols[..i].iter().any(|b| a.eq_ignore_ascii_case(b));
    symbols.len() > 40 || symbols.iter().enumerate().any(twice)
}

impl Alphabet {
    fn symbol(&self, rng: &mut Rng, symbol: char) -> String {
        if self.respect_case || rng.percent(80) {
            return symbol.to_string();
        }
        either_case(rng, symbol).to_string()
    }

    fn set(&self, rng: &mut Rng, open: char, states: &[usize], close: char) -> String {
        let mut states = states.to_vec();
        rng.shuffle(&mut states);
        if rng.percent(10) {
            states.push(states[0]);
        }
        let gap = if rng.percent(15) { " " } else { "" };
        let mut out = format!("{open}{gap}");
        for state in states {
            out.push_str(&self.symbol(rng, self.symbols[state]));
            out.push_str(gap);
        }
        out.push(close);
        out
    }

    pub fn cell(&self, rng: &mut Rng, cell: &Cell) -> String {
        match cell {
            Cell::State(state) => self.symbol(rng, self.symbols[*state]),
            Cell::Missing => self.symbol(rng, self.missing),
            Cell::Gap => self.symbol(rng, self.gap.expect("a gap symbol")),
            Cell::Polymorphic(states) => self.set(rng, '(', states, ')'),
            Cell::Uncertain(states) => match self.code(states) {
                Some(code) if rng.percent(70) => self.symbol(rng, code),
                _ => self.set(rng, '{', states, '}'),
            },
        }
    }

    /// The IUPAC code of a set, if the text has not another use for it.
    fn code(&self, states: &[usize]) -> Option<char> {
        let of = |code: &char| match crate::alignment::dna_cell(*code) {
            Some(Cell::Uncertain(set)) => set == states,
            _ => false,
        };
        let code = "RYSWKMBDHVN".chars().find(of)?;
        (self.dna && !code.eq_ignore_ascii_case(&self.missing)).then_some(code)
    }

    /// The FORMAT command; none if it would have no option.
    pub fn format(&self, rng: &mut Rng, interleaved: bool) -> Option<Command> {
        let mut options: Vec<Command> = Vec::new();
        if self.dna || rng.percent(20) {
            let value = if self.dna { "DNA" } else { "STANDARD" };
            options.push(self.option(rng, "DATATYPE", piece(value)));
        }
        if self.missing != '?' || rng.percent(15) {
            options.push(self.symbol_option(rng, "MISSING", self.missing));
        }
        let default_gap = if self.dna { Some('-') } else { None };
        if let Some(gap) = self
            .gap
            .filter(|_| self.gap != default_gap || rng.percent(20))
        {
            options.push(self.symbol_option(rng, "GAP", gap));
        }
        let default = if self.dna { "ACGT" } else { "01" };
        let symbols: String = self.symbols.iter().collect();
        if symbols != default || rng.percent(15) {
            let gap = rng.pick(&["", "", "", " ", "\n", "\u{3000}"]);
            let spelled: Vec<String> = symbols.chars().map(String::from).collect();
            let value = format!("\"{}\"", spelled.join(gap));
            options.push(self.option(rng, "SYMBOLS", piece(value)));
        }
        if self.respect_case {
            options.push(vec![keyword(rng, "RESPECTCASE")]);
        }
        for word in ["LABELS", "NOTOKENS"] {
            if rng.percent(5) {
                options.push(vec![keyword(rng, word)]);
            }
        }
        if interleaved || rng.percent(4) {
            options.push(interleave_option(rng, interleaved));
        }
        rng.shuffle(&mut options);
        if options.is_empty() && rng.percent(95) {
            return None;
        }
        let mut command = vec![keyword(rng, "FORMAT")];
        command.extend(options.into_iter().flatten());
        Some(command)
    }

    fn option(&self, rng: &mut Rng, option: &str, value: Piece) -> Command {
        vec![keyword(rng, option), piece("="), value]
    }

    fn symbol_option(&self, rng: &mut Rng, option: &str, symbol: char) -> Command {
        let value = match rng.below(10) {
            0 => format!("'{symbol}'"),
            1 => format!("\"{symbol}\""),
            _ => symbol.to_string(),
        };
        self.option(rng, option, piece(value))
    }
}

fn interleave_option(rng: &mut Rng, interleaved: bool) -> Command {
    let mut option = vec![keyword(rng, "INTERLEAVE")];
    if !interleaved || rng.percent(30) {
        option.push(piece("="));
        option.push(keyword(rng, if interleaved { "YES" } else { "NO" }));
    }
    option
}
