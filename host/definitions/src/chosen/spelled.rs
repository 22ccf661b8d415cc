//! Bytes as they are spelled in antt.

/// Bytes as antt writes them: texts of ASCII, and single bytes between them.
pub fn antt(bytes: &[u8]) -> String {
    match bytes.iter().position(|&byte| !in_text(byte)) {
        None => text(bytes),
        Some(0) => format!("{} ∷ {}", bytes[0], antt(&bytes[1..])),
        Some(at) => format!("{} ++ ({})", text(&bytes[..at]), antt(&bytes[at..])),
    }
}

/// Whether a text of antt can hold the byte.
fn in_text(byte: u8) -> bool {
    matches!(byte, b'\n' | b'\r' | b'\t' | b' '..=b'~')
}

fn text(bytes: &[u8]) -> String {
    if bytes.is_empty() {
        return "[]".to_string();
    }
    let spelled = bytes.escape_ascii().to_string().replace("\\'", "'");
    format!("bytes \"{spelled}\"")
}

#[cfg(test)]
mod tests {
    use super::*;

    #[test]
    fn bytes_are_texts_where_they_can_be() {
        assert_eq!(antt(b""), "[]");
        assert_eq!(antt(b"a\"\\\n'"), r#"bytes "a\"\\\n'""#);
        assert_eq!(
            antt("aéb".as_bytes()),
            r#"bytes "a" ++ (195 ∷ 169 ∷ bytes "b")"#
        );
        assert_eq!(antt(b"\x00"), "0 ∷ []");
    }
}
