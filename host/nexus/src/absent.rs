//! What stands in place of the archive's functions where it is not linked.

use crate::archive::NOT_LINKED;

/// Says that no text can be read.
pub fn nexus_read(
    _text: &[u8],
    _work: &mut [u32],
    _buffer: &mut [u8],
    _number: &mut u32,
    _line: &mut usize,
    _column: &mut usize,
) -> usize {
    panic!("{NOT_LINKED}")
}

/// Says that no record can be written.
pub fn nexus_write(_record: &[u8], _buffer: &mut [u8], _number: &mut u32) -> usize {
    panic!("{NOT_LINKED}")
}

/// Says that no cells can be found.
pub fn nexus_lookup(_record: &[u8], _name: &[u8], _number: &mut u32, _start: &mut usize) -> usize {
    panic!("{NOT_LINKED}")
}

/// Does nothing: no memory is lent.
pub fn large_pages<T>(_memory: &mut [T]) {}
