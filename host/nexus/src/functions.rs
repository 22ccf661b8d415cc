//! The archive's functions, with slices for pointers and lengths, and one of the system. This file
//! has all that is unsafe.

mod archive {
    // SAFETY: crates/nexus_c exports these functions, with the types that include/nexus.h has.
    unsafe extern "C" {
        pub fn nexus_read(
            text: *const u8,
            text_length: usize,
            work: *mut u32,
            work_length: usize,
            buffer: *mut u8,
            buffer_length: usize,
            number: *mut u32,
            line: *mut usize,
            column: *mut usize,
        ) -> usize;

        pub fn nexus_write(
            record: *const u8,
            record_length: usize,
            buffer: *mut u8,
            buffer_length: usize,
            number: *mut u32,
        ) -> usize;

        pub fn nexus_lookup(
            record: *const u8,
            record_length: usize,
            name: *const u8,
            name_length: usize,
            number: *mut u32,
            start: *mut usize,
        ) -> usize;
    }
}

/// Reads a text.
pub fn nexus_read(
    text: &[u8],
    work: &mut [u32],
    buffer: &mut [u8],
    number: &mut u32,
    line: &mut usize,
    column: &mut usize,
) -> usize {
    // SAFETY: the function has no requires, and stays within what it is lent. A slice is passed as
    // its pointer, which is never null, and its length; no two of the references overlap.
    unsafe {
        archive::nexus_read(
            text.as_ptr(),
            text.len(),
            work.as_mut_ptr(),
            work.len(),
            buffer.as_mut_ptr(),
            buffer.len(),
            number,
            line,
            column,
        )
    }
}

/// Writes a record's form.
pub fn nexus_write(record: &[u8], buffer: &mut [u8], number: &mut u32) -> usize {
    let (record, length) = (record.as_ptr(), record.len());
    let (buffer, room) = (buffer.as_mut_ptr(), buffer.len());
    // SAFETY: as for `nexus_read`.
    unsafe { archive::nexus_write(record, length, buffer, room, number) }
}

/// Finds a taxon's cells.
pub fn nexus_lookup(record: &[u8], name: &[u8], number: &mut u32, start: &mut usize) -> usize {
    let (record, length) = (record.as_ptr(), record.len());
    let (name, size) = (name.as_ptr(), name.len());
    // SAFETY: as for `nexus_read`; the record and the name may overlap, since both are only read.
    unsafe { archive::nexus_lookup(record, length, name, size, number, start) }
}

mod system {
    // SAFETY: Linux has this function, with these types, on 64 bits.
    unsafe extern "C" {
        pub fn madvise(memory: *mut u8, length: usize, advice: i32) -> i32;
    }
}

/// Asks for large pages, so that memory is handed out by two mebibytes as it is first written to, and
/// not by four kibibytes. What it holds is as it was; a system without such pages does nothing.
pub fn large_pages<T>(memory: &mut [T]) {
    const PAGE: usize = 4096;
    const LARGE_PAGES: i32 = 14;
    let start = memory.as_ptr().align_offset(PAGE);
    let Some(pages) = memory.get_mut(start..) else {
        return;
    };
    let length = size_of_val(pages) / PAGE * PAGE;
    // SAFETY: the pages lie within the slice, and the advice leaves what they hold as it is.
    unsafe { system::madvise(pages.as_mut_ptr().cast(), length, LARGE_PAGES) };
}
