//! A host that allocates nothing: it lends all memory, and reads, looks at the record, looks up and
//! writes. Every allocation of its thread is counted.

use std::alloc::{GlobalAlloc, Layout, System};
use std::cell::Cell as Counter;
use std::hint::black_box;

use inputs::example::{FORM, RECORD, TEXT};
use nexus::{Cell, Refusal, View, lookup, read_into, write_into};

thread_local! {
    static COUNT: Counter<usize> = const { Counter::new(0) };
}

struct Counting;

// SAFETY: every call is handed on to the system's allocator as it is. The counter of a thread is
// neither allocated nor dropped.
unsafe impl GlobalAlloc for Counting {
    unsafe fn alloc(&self, layout: Layout) -> *mut u8 {
        COUNT.set(COUNT.get() + 1);
        // SAFETY: the caller keeps to what `alloc` asks for.
        unsafe { System.alloc(layout) }
    }

    unsafe fn dealloc(&self, memory: *mut u8, layout: Layout) {
        // SAFETY: the memory is of `System.alloc`, with this layout.
        unsafe { System.dealloc(memory, layout) }
    }
}

#[global_allocator]
static ALLOCATOR: Counting = Counting;

/// How many allocations this makes, and what it gives.
fn counted<T>(work: impl FnOnce() -> T) -> (usize, T) {
    let before = COUNT.get();
    let result = work();
    (COUNT.get() - before, result)
}

/// Walks over all that a record says: how many bytes, states and other parts it was handed.
fn walked(view: View<'_>) -> usize {
    let mut parts = view.symbols().states().map(|state| state.number()).sum();
    for taxon in view.taxa() {
        parts += taxon.name().bytes().count();
        for cell in taxon.cells() {
            parts += match cell {
                Cell::State(state) => state.number() + state.symbol().len_utf8(),
                Cell::Uncertain(states) | Cell::Polymorphic(states) => states.len(),
                Cell::Missing | Cell::Gap => 1,
            };
        }
    }
    for character in view.characters() {
        parts += character.number().get() + character.ordering().word().len();
        parts += character.label().map_or(0, |label| label.bytes().count());
        for label in character.state_labels() {
            parts += label.bytes().count();
        }
    }
    parts
}

#[test]
fn allocations_are_counted() {
    let (count, list) = counted(|| black_box(vec![1_u8, 2, 3]));
    assert_eq!((count, list.len()), (1, 3));
}

#[test]
#[cfg_attr(not(archive), ignore = "no archive; tools/test-calls makes it")]
fn views_allocate_nothing() {
    for text in [
        inputs::standard(30, 500, true),
        inputs::labels(1_000),
        inputs::long_label(30_000),
        inputs::vector(1_000),
    ] {
        let record = nexus::read(&text).expect("a record");
        let (count, parts) = counted(|| {
            let view = View::of(record.as_bytes()).expect("a view");
            assert_eq!(view, record.view());
            walked(view)
        });
        assert_eq!(count, 0);
        assert!(parts > 1_000, "{parts} parts");
    }
}

/// A host as one in C would be: memory of fixed sizes, lent again and again.
struct Host {
    work: [u32; 2_000],
    record: [u8; 2_000],
    form: [u8; 2_000],
}

impl Host {
    /// The lengths of a text's record and form, and the parts that its views hand out.
    fn reads(&mut self, text: &[u8]) -> Result<(usize, usize, usize), Refusal> {
        let length = read_into(text, &mut self.work, &mut self.record)?;
        let record = &self.record[..length];
        let parts = walked(View::of(record)?);
        let form = write_into(record, &mut self.form)?;
        Ok((length, form, parts))
    }
}

#[test]
#[cfg_attr(not(archive), ignore = "no archive; tools/test-calls makes it")]
fn a_host_that_lends_its_memory_allocates_nothing() {
    let mut host = Host {
        work: [7; 2_000],
        record: [b'#'; 2_000],
        form: [b'#'; 2_000],
    };
    for _ in 0..3 {
        let (count, answer) = counted(|| host.reads(TEXT.as_bytes()));
        let (record, form, parts) = answer.expect("a record");
        assert_eq!((count, record, form), (0, RECORD.len(), FORM.len()));
        assert!(parts > 30, "{parts} parts");
        assert_eq!(&host.form[..form], FORM.as_bytes());
        // What stands behind the results is as it was.
        assert!(host.record[record..].iter().all(|byte| *byte == b'#'));
        assert!(host.form[form..].iter().all(|byte| *byte == b'#'));
        // The form is a text too, and has the same record.
        let (count, again) = counted(|| host.reads(FORM.as_bytes()));
        assert_eq!((count, again), (0, Ok((record, form, parts))));
        let (count, cells) = counted(|| lookup(&host.record[..record], b"c"));
        assert_eq!((count, cells), (0, Ok(&b"1 p1 0"[..])));
        // A refusal takes no memory either, and leaves the buffers as they were.
        let (count, refused) = counted(|| host.reads(b"#NEXUS BEGIN DATA;"));
        let number = refused.map_err(|refusal| (refusal.number, refusal.line, refusal.column));
        assert_eq!((count, number), (0, Err((9, 1, 14))));
        assert_eq!(&host.record[..record], RECORD.as_bytes());
    }
}
