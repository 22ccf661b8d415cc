//! Frames: a length of four bytes, little-endian, and that many bytes.

use std::io::{self, Read, Write};

/// The next frame; none at the end of the input.
pub fn read_frame(input: &mut impl Read) -> io::Result<Option<Vec<u8>>> {
    let mut length = Vec::new();
    input.by_ref().take(4).read_to_end(&mut length)?;
    if length.is_empty() {
        return Ok(None);
    }
    let length: [u8; 4] = length
        .try_into()
        .map_err(|_| cut_short("the length of a frame"))?;
    let length = u64::from(u32::from_le_bytes(length));
    let mut bytes = Vec::new();
    input.by_ref().take(length).read_to_end(&mut bytes)?;
    if bytes.len() as u64 != length {
        return Err(cut_short("a frame"));
    }
    Ok(Some(bytes))
}

/// The next frame, which must be there because something before it asks for it.
pub fn need_frame(input: &mut impl Read, what: &str) -> io::Result<Vec<u8>> {
    read_frame(input)?.ok_or_else(|| cut_short(what))
}

pub fn write_frame(output: &mut impl Write, bytes: &[u8]) -> io::Result<()> {
    let length = u32::try_from(bytes.len())
        .map_err(|_| io::Error::new(io::ErrorKind::InvalidInput, "a frame of 4 GiB or more"))?;
    output.write_all(&length.to_le_bytes())?;
    output.write_all(bytes)
}

fn cut_short(what: &str) -> io::Error {
    let message = format!("the input ends where {what} should go on");
    io::Error::new(io::ErrorKind::UnexpectedEof, message)
}
