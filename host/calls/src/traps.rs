//! The traps of lexing.

/// The texts, by what they try.
pub const TRAPS: &[(&str, &[&[u8]])] = &[
    (
        "a text that leaves something open, and one that is not UTF-8",
        &[
            b"[#NEXUS",
            b"'#NEXUS",
            b"'\xff",
            b"[\xff",
            b"'[",
            b"['",
            b"\x80",
            b"\xc0\x80",
            b"\xe0\x9f\xbf",
            b"\xed\xa0\x80",
            b"\xf4\x90\x80\x80",
            b"ab\xe2\x82",
            b"\xf5",
            "\u{10ffff}\u{d7ff}\u{e000}\u{7ff}\u{800}\u{ffff}\u{10000}x".as_bytes(),
        ],
    ),
    (
        "byte order marks",
        &[
            "\u{feff}#NEXUS".as_bytes(),
            "\u{feff}".as_bytes(),
            "\u{feff}\u{feff}a".as_bytes(),
            "a\u{feff}b \u{feff}".as_bytes(),
            "\u{feff}\n\u{feff}x".as_bytes(),
        ],
    ),
    (
        "columns count characters",
        &[
            "\t\u{430} e\u{301} \u{1f600}x y".as_bytes(),
            "'\u{1f600}\t' x".as_bytes(),
        ],
    ),
    (
        "newlines",
        &[
            b"a\nb\rc\r\nd",
            b"\n\r",
            b"\r\r\n",
            b"'a\r\nb\rc\nd' x\ny",
            b"[a\r\nb\rc\nd] x\ny",
            b"\r\n\r\n\n\rz",
            b"\"\r\" \"\r\r\n\" z",
            b"a\r",
            b"'\r",
            b"[\r\n\r",
            b"\n\na\n\n",
            b"'\r\n'",
            b"\"a\rb\"",
        ],
    ),
    (
        "blanks, and what is none",
        &[
            "a\x0bb\x0cc\u{85}d\u{2028}e\u{2029}f".as_bytes(),
            "a\u{a0}b\u{1680}c\u{2000}d\u{2001}e\u{2005}f\u{200a}g\u{202f}h\u{205f}i\u{3000}j k\tl"
                .as_bytes(),
            "a\u{200b}b\u{180e}c\u{feff}d\u{2011}e\u{2030}f\u{84}g\u{1681}h\u{3001}i\u{205e}j"
                .as_bytes(),
            b"\x1c\x1d\x1e\x1f a",
        ],
    ),
    (
        "quotes",
        &[
            b"'a''b'",
            b"\"a\"\"b\"",
            b"'a'[x]'b'",
            b"'''",
            b"''''",
            b"''",
            b"\"\"",
            b"'a''",
            b"\"'\" '\"'",
            b"'a' 'b''' \"''\"",
        ],
    ),
    (
        "comments",
        &[
            b"a[b[c]d]e",
            b"['\"]x",
            b"'[' \"]\" ']'",
            b"\"[a\" b]",
            b"[[a]",
            b"[]a[]b[]",
            b"x[a]'b'[c]y",
        ],
    ),
    (
        "comments inside and before a word",
        &[
            b"ab[\n]cd",
            b"0[x]3 2-[x]4 #NE[x]XUS A[\r\n[y]]LL",
            b"ab[x] cd",
            b"a[x][y]b",
            b"a[x]\nb",
            b"[x]ab",
            b"[\n]  ab[\n]c d",
            b"[x] [y]ab",
        ],
    ),
    (
        "the place of what stays open",
        &[
            b"ab[cd",
            b"x\n ab[c[d]",
            "\u{e9}[a[b".as_bytes(),
            b"a[x]b[y",
            b"abc 'de",
            "\u{e9} \"x".as_bytes(),
        ],
    ),
    ("a closing bracket by itself", &[b"]", b"a]b]]", b"[a]]"]),
    (
        "a quote ends a word",
        &[b"a'b'c", b"a\"b\"c", b"'a'b\"c\"'d'"],
    ),
    (
        "punctuation marks, and what is none",
        &[
            b"a-b.c -.- 0+1 +2",
            b"(){}]/\\,;:=*<>^+`",
            b"~#$%&!?@|_-",
            b"a\x00b \x7f \x01\x1b",
            b"a=b;c,d:e/f\\g*h<i>j^k+l`m(n)o{p}q]r",
        ],
    ),
    (
        "double-quoted text, and a whole file",
        &[
            b"\"END\" 'END' END \"2\" \"\"",
            b"#NEXUS\nBEGIN DATA;\nDIMENSIONS NTAX=2 NCHAR=4;\nFORMAT DATATYPE=STANDARD \
            SYMBOLS=\"0 1\" MISSING=? GAP=-;\nMATRIX\na_b 01?-\n'c d' {01}(01)10\n;\nEND;\n",
        ],
    ),
    ("no byte, and as many as may be", &[b"", &[b'a'; 4_096]]),
];
