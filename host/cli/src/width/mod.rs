//! How many columns of a terminal a text takes, and how it is shown there.

mod tables;

/// What stands where a text was cut.
pub const CUT: char = '…';

/// The columns that a character takes: none, one or two.
pub fn of_char(c: char) -> usize {
    match c {
        ' '..='~' => 1,
        _ if within(tables::ZERO, c) => 0,
        _ if within(tables::WIDE, c) => 2,
        _ => 1,
    }
}

/// The columns that a text takes which has no control characters.
pub fn of(text: &str) -> usize {
    text.chars().map(of_char).sum()
}

/// Is the character in one of the ranges?
fn within(ranges: &[u32], c: char) -> bool {
    // Ends before the character: of each range that is passed two, of the one that has it one.
    let passed = ranges.partition_point(|&end| end < u32::from(c));
    passed % 2 == 1 || ranges.get(passed) == Some(&u32::from(c))
}

/// A character that is safe to show: control characters stand as their pictures, those that turn
/// the direction of writing, and others without a picture, as U+FFFD.
pub fn shown(c: char) -> char {
    match c {
        '\0'..='\u{1f}' => char::from_u32(0x2400 + u32::from(c)).unwrap_or('\u{fffd}'),
        '\u{7f}' => '\u{2421}',
        '\u{80}'..='\u{9f}' | '\u{2028}' | '\u{2029}' => '\u{fffd}',
        '\u{61c}' | '\u{200e}' | '\u{200f}' | '\u{202a}'..='\u{202e}' => '\u{fffd}',
        '\u{2066}'..='\u{2069}' => '\u{fffd}',
        _ => c,
    }
}

/// A text that is safe to show, each character as `shown` has it.
pub fn safe(text: &str) -> String {
    text.chars().map(shown).collect()
}

/// The text, cut to so many columns where it takes more; what is cut ends with the sign for it.
pub fn cut(text: &str, columns: usize) -> String {
    if of(text) <= columns {
        return text.to_string();
    }
    let mut taken = 0;
    let fits = |c: &char| {
        taken += of_char(*c);
        taken < columns
    };
    let mut kept: String = text.chars().take_while(fits).collect();
    if columns > 0 {
        kept.push(CUT);
    }
    kept
}

/// The text with blanks behind it, up to so many columns.
pub fn padded(text: &str, columns: usize) -> String {
    let blanks = columns.saturating_sub(of(text));
    format!("{text}{}", " ".repeat(blanks))
}

/// The words of a text in lines of so many columns at most; a longer word has a line of its own.
pub fn filled(text: &str, columns: usize) -> Vec<String> {
    let mut lines: Vec<String> = Vec::new();
    for word in text.split_whitespace() {
        match lines.last_mut() {
            Some(line) if of(line) + 1 + of(word) <= columns => {
                line.push(' ');
                line.push_str(word);
            }
            _ => lines.push(word.to_string()),
        }
    }
    lines
}

#[cfg(test)]
mod tests {
    use super::*;

    #[test]
    fn the_tables_rise() {
        for table in [tables::ZERO, tables::WIDE] {
            assert_eq!(table.len() % 2, 0);
            assert!(table.chunks(2).all(|range| range[0] <= range[1]));
            assert!(table.windows(2).step_by(2).all(|pair| pair[0] <= pair[1]));
            let between = table.windows(2).skip(1).step_by(2);
            assert!(between.clone().count() > 80);
            assert!(between.into_iter().all(|pair| pair[0] < pair[1]));
        }
    }

    #[test]
    fn widths_of_characters() {
        for (character, width) in [
            ('a', 1),
            (' ', 1),
            ('é', 1),
            ('ż', 1),
            ('…', 1),
            ('\u{ad}', 1),
            ('\u{2ff}', 1),
            ('\u{300}', 0),
            ('\u{301}', 0),
            ('\u{36f}', 0),
            ('\u{370}', 1),
            ('\u{feff}', 0),
            ('\u{200d}', 0),
            ('\u{10ff}', 1),
            ('\u{1100}', 2),
            ('\u{1160}', 0),
            ('日', 2),
            ('本', 2),
            ('한', 2),
            ('ア', 2),
            ('Ａ', 2),
            ('ｱ', 1),
            ('🌿', 2),
            ('\u{20000}', 2),
            ('\u{3fffd}', 2),
            ('\u{10ffff}', 1),
        ] {
            assert_eq!(of_char(character), width, "{:x}", u32::from(character));
        }
        assert_eq!(of("日本 e\u{301}"), 6);
        assert_eq!(of(""), 0);
    }

    #[test]
    fn texts_are_cut_and_padded() {
        assert_eq!(cut("abcd", 4), "abcd");
        assert_eq!(cut("abcde", 4), "abc…");
        assert_eq!(cut("日本語", 6), "日本語");
        assert_eq!(cut("日本語", 5), "日本…");
        assert_eq!(cut("日本語", 4), "日…");
        assert_eq!(cut("abc", 1), "…");
        assert_eq!(cut("abc", 0), "");
        assert_eq!(padded("日", 4), "日  ");
        assert_eq!(padded("abc", 2), "abc");
    }

    #[test]
    fn words_fill_lines() {
        assert_eq!(filled("ab cd  efg\nh", 5), ["ab cd", "efg h"]);
        assert_eq!(
            filled("日本 語 abcdefgh i", 7),
            ["日本 語", "abcdefgh", "i"]
        );
        assert!(filled(" ", 5).is_empty());
    }

    #[test]
    fn controls_are_not_shown_as_they_are() {
        assert_eq!(safe("a\nb\u{1b}[31m\t"), "a␊b␛[31m␉");
        assert_eq!(
            safe("\u{7f}\u{9b}\u{202e}\u{2067}x"),
            "␡\u{fffd}\u{fffd}\u{fffd}x"
        );
        assert_eq!(safe("żółć 日本"), "żółć 日本");
    }
}
