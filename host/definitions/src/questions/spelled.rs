//! Bytes as they are spelled in a file of chosen questions.

/// The bytes of a spelled text: `\n`, `\r`, `\t`, `\\`, `\xHH` for a byte and `\u{H}` for a
/// character; all else stands for itself.
pub fn bytes(spelled: &str) -> Result<Vec<u8>, String> {
    let mut bytes = Vec::new();
    let mut rest = spelled;
    while let Some(at) = rest.find('\\') {
        bytes.extend(&rest.as_bytes()[..at]);
        rest = escape(&rest[at + 1..], &mut bytes).ok_or(format!("an escape in {spelled}"))?;
    }
    bytes.extend(rest.as_bytes());
    Ok(bytes)
}

/// Takes an escape, without its backslash, and gives what stands behind it.
fn escape<'a>(spelled: &'a str, bytes: &mut Vec<u8>) -> Option<&'a str> {
    let (kind, rest) = spelled.split_at_checked(1)?;
    match kind {
        "n" => bytes.push(b'\n'),
        "r" => bytes.push(b'\r'),
        "t" => bytes.push(b'\t'),
        "\\" => bytes.push(b'\\'),
        "x" => {
            let (digits, rest) = rest.split_at_checked(2)?;
            bytes.push(u8::from_str_radix(digits, 16).ok()?);
            return Some(rest);
        }
        "u" => {
            let (digits, rest) = rest.strip_prefix('{')?.split_once('}')?;
            let character = char::from_u32(u32::from_str_radix(digits, 16).ok()?)?;
            bytes.extend(character.to_string().as_bytes());
            return Some(rest);
        }
        _ => return None,
    }
    Some(rest)
}

#[cfg(test)]
mod tests {
    use super::*;

    #[test]
    fn escapes_are_bytes() {
        let read = |spelled| bytes(spelled).expect("bytes");
        assert_eq!(read(r"a\n\r\t\\2\x00\xff"), b"a\n\r\t\\2\x00\xff");
        assert_eq!(read(r"é\u{e9}\u{3000}"), "éé\u{3000}".as_bytes());
        for wrong in [r"\", r"\q", r"\x0", r"\u{d800}", r"\u3"] {
            assert!(bytes(wrong).is_err(), "{wrong}");
        }
    }
}
