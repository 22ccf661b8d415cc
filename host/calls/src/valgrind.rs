//! What valgrind is told of memory, by its client requests (valgrind.h, memcheck.h). Outside of
//! valgrind a request does nothing.

use std::mem::size_of_val;

/// What valgrind takes memory for.
#[derive(Clone, Copy)]
pub enum State {
    /// Nothing may be read or written.
    Closed = 0x4d43_0000,
    /// What is read before it was written may decide nothing.
    Undefined = 0x4d43_0001,
    Defined = 0x4d43_0002,
}

pub fn mark<T>(memory: &[T], state: State) {
    let address = memory.as_ptr().addr();
    request(0, [state as usize, address, size_of_val(memory), 0, 0, 0]);
}

/// Does valgrind run this program?
pub fn running() -> bool {
    const RUNNING_ON_VALGRIND: usize = 0x1001;
    request(0, [RUNNING_ON_VALGRIND, 0, 0, 0, 0, 0]) > 0
}

#[cfg(target_arch = "x86_64")]
fn request(otherwise: usize, words: [usize; 6]) -> usize {
    let answer;
    // SAFETY: the turns of rdi come to 128 bits, and rbx is exchanged with itself, so that only
    // rdx, where valgrind puts its answer, and the flags change; the words are lent for this long.
    unsafe {
        std::arch::asm!(
            "rol rdi, 3",
            "rol rdi, 13",
            "rol rdi, 61",
            "rol rdi, 51",
            "xchg rbx, rbx",
            in("rax") words.as_ptr(),
            inout("rdx") otherwise => answer,
            options(nostack),
        );
    }
    answer
}

#[cfg(not(target_arch = "x86_64"))]
fn request(otherwise: usize, _: [usize; 6]) -> usize {
    otherwise
}
