//! A line cut around a place, and where its mark stands.

use super::words::column_start;
use crate::width;

/// A tab is shown as so many blanks.
const TAB: &str = "    ";

/// What is shown of a line.
#[derive(Debug, Eq, PartialEq)]
pub struct Cut {
    /// The line, or what is left of it.
    pub line: String,
    /// The columns before the mark.
    pub before: usize,
    /// The columns of the mark.
    pub marks: usize,
}

/// The line in so many columns, with the place in it where a word stands that is to be marked.
pub fn cut(line: &str, column: usize, word: &str, room: usize) -> Cut {
    let (left, right) = line.split_at(column_start(line, column));
    let (left_room, right_room) = shares(width_of(left), width_of(right).max(1), room);
    let (left, left_cut) = kept(left.chars().rev(), left_room);
    let (right, right_cut) = kept(right.chars(), right_room);
    let sign = |cut: bool| if cut { "…" } else { "" };
    let front: String = left.iter().rev().copied().collect();
    let front = format!("{}{}", sign(left_cut), text_of(&front));
    let shown: String = right.iter().collect();
    let marked: String = right.iter().take(word.chars().count()).collect();
    // A mark that stands on the character before it has no column of its own.
    let leans = usize::from(word.chars().next().is_some_and(|c| columns(c) == 0));
    Cut {
        before: width::of(&front).saturating_sub(leans),
        marks: width_of(&marked).max(1),
        line: format!("{front}{}{}", text_of(&shown), sign(right_cut)),
    }
}

/// How many columns each side of the place has: all that it needs, or else half, and what the other
/// leaves.
fn shares(left: usize, right: usize, room: usize) -> (usize, usize) {
    let half = room / 2;
    if left <= half {
        (left, room - left)
    } else if right <= room - half {
        (room - right, right)
    } else {
        (half, room - half)
    }
}

/// As many characters as have room, and whether some were left out; the sign for that has room too.
fn kept(characters: impl Iterator<Item = char> + Clone, room: usize) -> (Vec<char>, bool) {
    if characters.clone().map(columns).sum::<usize>() <= room {
        return (characters.collect(), false);
    }
    let mut taken = 0;
    let fits = |c: &char| {
        taken += columns(*c);
        taken < room
    };
    (characters.take_while(fits).collect(), true)
}

/// The columns of a character as it is shown.
fn columns(c: char) -> usize {
    match c {
        '\t' => TAB.len(),
        _ => width::of_char(width::shown(c)),
    }
}

fn width_of(text: &str) -> usize {
    text.chars().map(columns).sum()
}

/// The text as it is shown; a byte order mark is not.
fn text_of(text: &str) -> String {
    width::safe(&text.replace('\t', TAB).replace('\u{feff}', ""))
}

#[cfg(test)]
mod tests {
    use super::*;

    #[track_caller]
    fn check(line: &str, column: usize, room: usize, shown: &str, mark: &str) {
        let word = super::super::words::word_at(line, column);
        let cut = cut(line, column, word, room);
        assert_eq!(cut.line, shown);
        let drawn = format!("{}{}", " ".repeat(cut.before), "^".repeat(cut.marks));
        assert_eq!(drawn, mark);
        assert!(width::of(shown) <= room && width::of(mark) <= room);
    }

    #[test]
    fn short_lines_are_whole() {
        check("a_b 0{01}X", 10, 40, "a_b 0{01}X", "         ^");
        check("", 1, 40, "", "^");
        check("ab", 3, 40, "ab", "  ^");
        check("  foo bar", 3, 9, "  foo bar", "  ^^^");
    }

    #[test]
    fn tabs_and_wide_characters_stand_right() {
        check("\tx\ty", 4, 40, "    x    y", "         ^");
        check("日本 X", 4, 40, "日本 X", "     ^");
        check("é 日本 0", 3, 40, "é 日本 0", "  ^^^^");
        check("e\u{301}e\u{301} X", 6, 40, "e\u{301}e\u{301} X", "   ^");
        check("a \u{301}b", 3, 40, "a \u{301}b", " ^");
        check("\u{feff}X", 2, 40, "X", "^");
        check("\u{1b}[31m X", 7, 40, "␛[31m X", "      ^");
    }

    #[test]
    fn long_lines_are_cut_around_the_place() {
        let line = format!("{} X {}", "a".repeat(50), "b".repeat(50));
        let blanks = |count| " ".repeat(count) + "^";
        let end = "b".repeat(18);
        check(
            &line,
            1,
            20,
            &format!("{}…", "a".repeat(19)),
            &"^".repeat(19),
        );
        check(&line, 52, 20, "…aaaaaaaa X bbbbbbb…", &blanks(10));
        check(&line, 103, 20, &format!("…{end}b"), &blanks(19));
        check(&line, 104, 20, &format!("…{end}"), &blanks(19));
        let wide = format!("{}X", "日".repeat(50));
        check(&wide, 51, 20, "…日日日日日日日日日X", &blanks(19));
    }
}
