//! What the reader does where a port is likely to differ: quotes, comments, places, blanks and
//! names.

mod common;

use common::{doc, expect, name, record, row, values};

#[test]
fn quotes_and_comments_come_first() {
    expect("X '", (4, 1, 3));
    expect("X [ '", (5, 1, 3));
    expect("X ' [", (4, 1, 3));
    expect("'''", (4, 1, 1));
    expect("a[b[c]", (5, 1, 2));
    expect("[[x]\n[y]", (5, 1, 1));
    expect("#NEXUS\r\n\r\"a\n", (4, 3, 1));
    expect("#NEXUS ab[", (5, 1, 10));
}

#[test]
fn places_count_characters_and_newlines() {
    expect("\u{feff}", (6, 1, 1));
    expect("\u{feff} [x]\n", (6, 1, 1));
    expect("\u{feff}\u{feff}#NEXUS", (6, 1, 2));
    expect("\n\r\r\n é", (6, 4, 2));
    expect("\u{b}\u{c}\u{85}\u{2028}\u{2029}\u{3000}x", (6, 1, 7));
    expect("[é𝄞\u{301}]x", (6, 1, 6));
    expect("\u{200b}", (6, 1, 1));
    expect("#NEXUS '\r\n' ", (8, 1, 8));
    expect("#NEXUS '\r\r\n' ;", (11, 1, 8));
    expect("#NEXUS 'a\rb' ; x", (11, 1, 8));
    expect("#NEXUS [\r\n\n] 'x", (4, 3, 3));
}

#[test]
fn all_25_blanks_are_blanks() {
    let blanks = "\t\n\u{b}\u{c}\r \u{85}\u{a0}\u{1680}\u{2000}\u{2001}\u{2002}\u{2003}\u{2004}\u{2005}\
        \u{2006}\u{2007}\u{2008}\u{2009}\u{200a}\u{2028}\u{2029}\u{202f}\u{205f}\u{3000}";
    assert_eq!(blanks.chars().count(), 25);
    for blank in blanks.chars() {
        assert_eq!(row("", 2, &format!("0{blank}1")), "0 1");
        expect(
            &doc("NTAX=1 NCHAR=1", "", &format!("'{blank}' 0")),
            (17, 6, 1),
        );
    }
    for other in "\u{200b}\u{180e}\u{feff}\u{0}\u{7f}".chars() {
        assert_eq!(name(&format!("'{other}'")), other.to_string());
        assert_eq!(name(&other.to_string()), other.to_string());
    }
}

#[test]
fn names_are_words_or_single_quoted() {
    assert_eq!(name("a[\n]b"), "ab");
    assert_eq!(name("_"), " ");
    assert_eq!(name("'_ '"), "  ");
    assert_eq!(name("'a_\u{a0}'"), "a \u{a0}");
    assert_eq!(name("'a\r\nb\rc\\'"), "a\\0b\\0c\\1");
    assert_eq!(name("'\\0'"), "\\10");
    assert_eq!(name("'[x]'"), "[x]");
    assert_eq!(name("END"), "END");
    assert_eq!(name("~#-"), "~#-");
    for wrong in ["''", "' '", "'\n'", "'\u{3000}'", "\"a\"", "=", "+", "]"] {
        expect(
            &doc("NTAX=1 NCHAR=1", "", &format!("{wrong} 0")),
            (17, 6, 1),
        );
    }
    // No folding beyond ASCII.
    for pair in ["é 0 É 1", "k 0 \u{212a} 1", "ß 0 SS 1", "é 0 e\u{301} 1"] {
        assert_eq!(
            values(&record(&doc("NTAX=2 NCHAR=1", "", pair)), "cells"),
            ["0", "1"]
        );
    }
    expect(&doc("NTAX=2 NCHAR=1", "", "a_B 0 'A b' 1"), (18, 6, 7));
}
