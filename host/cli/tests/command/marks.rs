//! The mark of a refusal stands under the character at its place.

use cli::diagnostics::Refused;
use cli::terminal::Terminal;
use cli::width;
use nexus::Refusal;

/// The character at a place, by counting: CR LF, LF and CR each end a line. None at a line's end.
fn character_at(text: &str, line: usize, column: usize) -> Option<char> {
    let (mut at_line, mut at_column) = (1, 1);
    let mut rest = text.chars().peekable();
    while let Some(c) = rest.next() {
        let ends = c == '\n' || c == '\r';
        if (at_line, at_column) == (line, column) {
            return (!ends).then_some(c);
        }
        match ends {
            true => (at_line, at_column) = (at_line + 1, 1),
            false => at_column += 1,
        }
        if c == '\r' && rest.peek() == Some(&'\n') {
            rest.next();
        }
    }
    None
}

/// The character over the mark in what is shown; a blank where the line ends before it.
fn marked(shown: &str) -> char {
    let mut lines = shown.lines().skip(3);
    let source = lines.next().expect("the line");
    let mark = lines.next().expect("the line of the mark");
    let caret = mark.find('^').expect("a mark");
    let mut column = 0;
    for c in source.chars() {
        let columns = width::of_char(c);
        if column == caret && columns > 0 {
            return c;
        }
        column += columns;
    }
    ' '
}

/// The text with letters that are wide, that stand on others, and tabs for blanks.
fn widened(text: &str, turn: usize) -> String {
    match turn % 4 {
        0 => text.to_string(),
        1 => text.replace('a', "日").replace(' ', "\t"),
        2 => text.replace('a', "a\u{301}").replace('e', "🌿"),
        _ => text.replace(' ', " [日本\u{200b}] "),
    }
}

#[test]
#[cfg_attr(not(archive), ignore = "no archive; tools/test-calls makes it")]
fn marks_stand_right() {
    let (mut placed, mut wide) = (0, 0);
    for number in 0..4_000 {
        let Ok(text) = String::from_utf8(oracle::generate::text(73, number)) else {
            continue;
        };
        let text = widened(&text, number as usize);
        let Err(refusal) = nexus::read(text.as_bytes()) else {
            continue;
        };
        if refusal.line == 0 {
            continue;
        }
        placed += 1;
        for columns in [24, 80, 10_000] {
            hold(&text, refusal, columns);
        }
        wide += usize::from(!text.is_ascii());
    }
    assert!(
        placed > 1_500 && wide > 500,
        "{placed} placed, {wide} beyond ASCII"
    );
}

#[track_caller]
fn hold(text: &str, refusal: Refusal, columns: usize) {
    let refused = Refused {
        name: "a.nex",
        text: text.as_bytes(),
        refusal,
    };
    let shown = refused.shown(&Terminal::plain(Some(columns)), None);
    let place = format!(" a.nex:{}:{}\n", refusal.line, refusal.column);
    assert!(shown.contains(&place), "{shown}");
    let lines: Vec<&str> = shown.lines().skip(3).take(2).collect();
    let widest = lines.iter().map(|line| width::of(line)).max();
    assert!(widest <= Some(columns.max(27)), "{shown}");
    let expected = match character_at(text, refusal.line, refusal.column) {
        // A mark on the character before it is not where it stands by itself.
        Some(c) if width::of_char(c) == 0 => return,
        Some('\t') | None => ' ',
        Some(c) => width::shown(c),
    };
    assert_eq!(marked(&shown), expected, "{refusal:?}\n{shown}");
}
