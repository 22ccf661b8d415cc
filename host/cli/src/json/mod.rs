//! JSON, as it is written.

mod record;

pub use record::{Cells, Record};

use std::fmt::{self, Display};

/// A string of JSON.
pub struct Quoted<'a>(pub &'a str);

impl Display for Quoted<'_> {
    fn fmt(&self, f: &mut fmt::Formatter<'_>) -> fmt::Result {
        f.write_str("\"")?;
        for c in self.0.chars() {
            match c {
                '"' => f.write_str("\\\"")?,
                '\\' => f.write_str("\\\\")?,
                '\n' => f.write_str("\\n")?,
                '\r' => f.write_str("\\r")?,
                '\t' => f.write_str("\\t")?,
                '\0'..='\u{1f}' | '\u{7f}'..='\u{9f}' | '\u{2028}' | '\u{2029}' => {
                    write!(f, "\\u{:04x}", u32::from(c))?;
                }
                _ => write!(f, "{c}")?,
            }
        }
        f.write_str("\"")
    }
}

/// An object of JSON, put together key by key.
#[derive(Debug, Default)]
pub struct Object {
    fields: String,
}

impl Object {
    /// An object without keys.
    pub fn new() -> Self {
        Self::default()
    }

    /// The object with one key more, whose value is a string.
    pub fn text(self, key: &str, value: &str) -> Self {
        self.value(key, Quoted(value))
    }

    /// The object with one key more, whose value is written as it is.
    pub fn value(mut self, key: &str, value: impl Display) -> Self {
        let comma = if self.fields.is_empty() { "" } else { "," };
        self.fields
            .push_str(&format!("{comma}{}:{value}", Quoted(key)));
        self
    }
}

impl Display for Object {
    fn fmt(&self, f: &mut fmt::Formatter<'_>) -> fmt::Result {
        write!(f, "{{{}}}", self.fields)
    }
}

/// An array of JSON.
pub struct Array<I>(pub I);

impl<I: Iterator<Item: Display> + Clone> Display for Array<I> {
    fn fmt(&self, f: &mut fmt::Formatter<'_>) -> fmt::Result {
        f.write_str("[")?;
        for (place, value) in self.0.clone().enumerate() {
            let comma = if place > 0 { "," } else { "" };
            write!(f, "{comma}{value}")?;
        }
        f.write_str("]")
    }
}

#[cfg(test)]
mod tests {
    use super::*;

    #[test]
    fn strings_are_escaped() {
        let said = |text: &str| Quoted(text).to_string();
        assert_eq!(said("a b"), "\"a b\"");
        assert_eq!(said("\"\\\n\t\r"), "\"\\\"\\\\\\n\\t\\r\"");
        assert_eq!(
            said("\u{0}\u{1f}\u{7f}\u{2028}"),
            "\"\\u0000\\u001f\\u007f\\u2028\""
        );
        assert_eq!(said("日本 🌿 é"), "\"日本 🌿 é\"");
    }

    #[test]
    fn objects_and_arrays() {
        assert_eq!(Object::new().to_string(), "{}");
        let object = Object::new()
            .text("a", "b")
            .value("c", Array([1, 2].iter()));
        assert_eq!(object.to_string(), "{\"a\":\"b\",\"c\":[1,2]}");
        assert_eq!(Array([0; 0].iter()).to_string(), "[]");
    }
}
