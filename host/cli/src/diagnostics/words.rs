//! Lines and words of a text, as the reader counts them.

/// The line with this number, counting from 1, without the newline that ends it: LF, CR, or CR LF.
/// Empty where the text has not so many.
pub fn line_of(text: &str, number: usize) -> &str {
    let mut rest = text;
    for _ in 1..number {
        let Some(end) = rest.find(['\n', '\r']) else {
            return "";
        };
        let ended = &rest[end..];
        rest = ended.strip_prefix("\r\n").unwrap_or(&ended[1..]);
    }
    let end = rest.find(['\n', '\r']).unwrap_or(rest.len());
    &rest[..end]
}

/// Where the column with this number begins, counting characters from 1.
pub fn column_start(line: &str, column: usize) -> usize {
    let mut starts = line.char_indices();
    starts
        .nth(column - 1)
        .map_or(line.len(), |(start, _)| start)
}

/// The word that begins at the column: one mark, a quoted text as far as it is on this line, or
/// what goes up to the next blank, mark, quote or comment. Empty at the line's end.
pub fn word_at(line: &str, column: usize) -> &str {
    let rest = &line[column_start(line, column)..];
    let mut characters = rest.char_indices();
    let Some((_, first)) = characters.next() else {
        return "";
    };
    let mut behind = characters.map(|(at, _)| at).chain([rest.len()]);
    let end = match first {
        '\'' | '"' => rest[1..].find(first).map_or(rest.len(), |at| at + 2),
        _ if is_mark(first) || first == '[' => behind.next().unwrap_or(rest.len()),
        _ => rest.find(ends_word).unwrap_or(rest.len()),
    };
    &rest[..end]
}

/// Do only blanks stand before the column?
pub fn leads_line(line: &str, column: usize) -> bool {
    line[..column_start(line, column)].trim().is_empty()
}

fn is_mark(c: char) -> bool {
    "(){}]/\\,;:=*`<>^+".contains(c)
}

fn ends_word(c: char) -> bool {
    c.is_whitespace() || is_mark(c) || "'\"[".contains(c)
}

#[cfg(test)]
mod tests {
    use super::*;

    #[test]
    fn lines_end_as_the_reader_ends_them() {
        let text = "a\nb\r\nc\rd\n\re\u{2028}f";
        let lines = ["a", "b", "c", "d", "", "e\u{2028}f", "", ""];
        for (number, line) in lines.iter().enumerate() {
            assert_eq!(line_of(text, number + 1), *line, "{number}");
        }
        assert_eq!(line_of("", 1), "");
    }

    #[test]
    fn blanks_before_a_word() {
        assert!(leads_line("ab cd", 1));
        assert!(leads_line(" \t\u{3000}é", 4));
        assert!(!leads_line("é cd", 3));
        assert!(leads_line("", 1));
    }

    #[test]
    fn words_end_as_the_reader_ends_them() {
        for (line, column, word) in [
            ("ab cd", 1, "ab"),
            ("ab cd", 2, "b"),
            ("ab cd", 4, "cd"),
            ("ab cd", 6, ""),
            ("ab cd", 9, ""),
            ("é{01}ü[x]", 2, "{"),
            ("é{01}ü[x]", 6, "ü"),
            ("é{01}ü[x]", 7, "["),
            ("'a b' c", 1, "'a b'"),
            ("'a b", 1, "'a b"),
            ("\"a\"b", 1, "\"a\""),
            ("a+b", 2, "+"),
        ] {
            assert_eq!(word_at(line, column), word, "{line} {column}");
        }
    }
}
