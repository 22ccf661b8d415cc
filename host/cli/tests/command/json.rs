//! JSON that is read again, and what the command says in it.

use std::collections::BTreeMap;

/// A value of JSON; numbers are whole and not negative, as all are that the command prints.
#[derive(Clone, Debug, Eq, PartialEq)]
pub enum Json {
    Null,
    Number(u64),
    Text(String),
    List(Vec<Json>),
    Object(BTreeMap<String, Json>),
}

impl Json {
    /// The value that the text spells, and nothing behind it.
    #[track_caller]
    pub fn parse(text: &str) -> Self {
        let mut reader = Reader { rest: text };
        let value = reader.value();
        assert_eq!(reader.rest, "", "behind the value of {text:?}");
        value
    }

    /// The objects of some lines.
    #[track_caller]
    pub fn lines(text: &str) -> Vec<Self> {
        assert!(text.is_empty() || text.ends_with('\n'), "{text:?}");
        text.lines().map(Self::parse).collect()
    }

    /// The value of this key.
    #[track_caller]
    pub fn get(&self, key: &str) -> &Self {
        match self {
            Self::Object(object) => object.get(key).unwrap_or(&Self::Null),
            other => panic!("no object: {other:?}"),
        }
    }

    #[track_caller]
    pub fn text(&self) -> &str {
        match self {
            Self::Text(text) => text,
            other => panic!("no text: {other:?}"),
        }
    }

    #[track_caller]
    pub fn number(&self) -> u64 {
        match self {
            Self::Number(number) => *number,
            other => panic!("no number: {other:?}"),
        }
    }

    #[track_caller]
    pub fn list(&self) -> &[Self] {
        match self {
            Self::List(list) => list,
            other => panic!("no list: {other:?}"),
        }
    }
}

struct Reader<'a> {
    rest: &'a str,
}

impl Reader<'_> {
    fn take(&mut self, token: &str) -> bool {
        let rest = self.rest.strip_prefix(token);
        self.rest = rest.unwrap_or(self.rest);
        rest.is_some()
    }

    #[track_caller]
    fn need(&mut self, token: &str) {
        assert!(
            self.take(token),
            "{token} is missing before {:?}",
            self.rest
        );
    }

    fn value(&mut self) -> Json {
        match self.rest.chars().next() {
            Some('"') => Json::Text(self.string()),
            Some('[') => Json::List(self.members("[", "]", Self::value)),
            Some('{') => {
                let members = self.members("{", "}", |reader| {
                    let key = reader.string();
                    reader.need(":");
                    (key, reader.value())
                });
                let count = members.len();
                let object: BTreeMap<String, Json> = members.into_iter().collect();
                assert_eq!(object.len(), count, "a key comes twice");
                Json::Object(object)
            }
            Some('n') => {
                self.need("null");
                Json::Null
            }
            _ => self.digits(),
        }
    }

    fn digits(&mut self) -> Json {
        let end = self.rest.find(|c: char| !c.is_ascii_digit());
        let (digits, rest) = self.rest.split_at(end.unwrap_or(self.rest.len()));
        self.rest = rest;
        assert!(digits == "0" || !digits.starts_with('0'), "{digits}");
        Json::Number(digits.parse().expect("a number"))
    }

    fn members<T>(&mut self, open: &str, close: &str, member: fn(&mut Self) -> T) -> Vec<T> {
        self.need(open);
        let mut members = Vec::new();
        while !self.take(close) {
            if !members.is_empty() {
                self.need(",");
            }
            members.push(member(self));
        }
        members
    }

    fn string(&mut self) -> String {
        self.need("\"");
        let mut string = String::new();
        loop {
            let mut characters = self.rest.chars();
            let c = characters.next().expect("a string that is closed");
            self.rest = characters.as_str();
            match c {
                '"' => return string,
                '\\' => string.push(self.escaped()),
                '\0'..='\u{1f}' => panic!("a control character in a string"),
                _ => string.push(c),
            }
        }
    }

    fn escaped(&mut self) -> char {
        for (token, c) in [
            ("n", '\n'),
            ("r", '\r'),
            ("t", '\t'),
            ("\"", '"'),
            ("\\", '\\'),
        ] {
            if self.take(token) {
                return c;
            }
        }
        self.need("u");
        let (hex, rest) = self.rest.split_at(4);
        self.rest = rest;
        let code = u32::from_str_radix(hex, 16).expect("a number");
        char::from_u32(code).expect("a character")
    }
}
