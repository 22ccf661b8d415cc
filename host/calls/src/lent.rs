//! Memory that is lent to a call, between memory that is not.

use crate::valgrind::{State, mark};

/// How many elements on each side are not lent.
const BESIDE: usize = 32;

/// What memory holds before a call. Of two kinds of rubbish with keys that are each other's
/// complement, no byte is the same: what is written where nothing should be differs from one.
#[derive(Clone, Copy, Debug)]
pub struct Rubbish(pub u32);

impl Rubbish {
    pub fn complement(self) -> Self {
        Self(!self.0)
    }
}

/// What memory is made of.
pub trait Element: Copy + Eq {
    fn of(rubbish: Rubbish, at: usize) -> Self;
}

impl Element for u32 {
    fn of(rubbish: Rubbish, at: usize) -> Self {
        (at as u32).wrapping_mul(0x9e37_79b1) ^ rubbish.0
    }
}

impl Element for usize {
    fn of(rubbish: Rubbish, at: usize) -> Self {
        let half = |at| u32::of(rubbish, at) as usize;
        half(2 * at) << 32 | half(2 * at + 1)
    }
}

impl Element for u8 {
    fn of(rubbish: Rubbish, at: usize) -> Self {
        (u32::of(rubbish, at) >> 24) as u8
    }
}

pub struct Lent<T> {
    all: Vec<T>,
    from: usize,
    length: usize,
    rubbish: Rubbish,
}

impl<T: Element> Lent<T> {
    /// So many elements, full of rubbish; `shift` moves them, so that bytes stand at any address.
    pub fn new(length: usize, shift: usize, rubbish: Rubbish) -> Self {
        let from = BESIDE + shift;
        let all = (0..from + length + BESIDE).map(|at| T::of(rubbish, at));
        Self {
            all: all.collect(),
            from,
            length,
            rubbish,
        }
    }

    /// The same, with something in it.
    pub fn holding(elements: &[T], shift: usize, rubbish: Rubbish) -> Self {
        let mut lent = Self::new(elements.len(), shift, rubbish);
        lent.slice().copy_from_slice(elements);
        lent
    }

    /// One element of rubbish, for a number that a call sets. Valgrind is told that nothing may hang on
    /// what it holds, and that what is beside it is closed.
    pub fn one(rubbish: Rubbish) -> Self {
        let mut lent = Self::new(1, 0, rubbish);
        lent.close_beside();
        lent.make_undefined();
        lent
    }

    pub fn slice(&mut self) -> &mut [T] {
        &mut self.all[self.from..self.from + self.length]
    }

    /// Tells valgrind that what is not lent is closed.
    pub fn close_beside(&self) {
        self.mark_beside(State::Closed);
    }

    /// Tells valgrind that nothing may hang on what is lent.
    pub fn make_undefined(&mut self) {
        mark(self.slice(), State::Undefined);
    }

    /// Tells valgrind that all may be read but the first so many elements, which are as they are.
    pub fn open_behind(&self, at: usize) {
        self.mark_beside(State::Defined);
        mark(&self.all[self.from + at.min(self.length)..], State::Defined);
    }

    fn mark_beside(&self, state: State) {
        mark(&self.all[..self.from], state);
        mark(&self.all[self.from + self.length..], state);
    }

    /// What has changed on the sides of what is lent, in words.
    pub fn changed_beside(&self, what: &str) -> Vec<String> {
        let sides = [
            ("before", self.kept_before()),
            ("behind", self.kept_behind()),
        ];
        let changed = sides.into_iter().filter(|(_, kept)| !kept);
        changed
            .map(|(side, _)| format!("memory {side} {what} has changed"))
            .collect()
    }

    /// Is everything before what is lent as it was?
    fn kept_before(&self) -> bool {
        self.kept(0, self.from)
    }

    /// Is everything behind what is lent as it was?
    fn kept_behind(&self) -> bool {
        self.kept(self.from + self.length, self.all.len())
    }

    /// Is what is lent, from here on, as it was?
    pub fn kept_from(&self, at: usize) -> bool {
        self.kept(self.from + at, self.from + self.length)
    }

    fn kept(&self, from: usize, to: usize) -> bool {
        let held = self.all[from..to].iter().enumerate();
        held.fold(true, |kept, (at, element)| {
            kept & (*element == T::of(self.rubbish, from + at))
        })
    }
}

#[cfg(test)]
mod tests {
    use super::*;

    #[test]
    fn every_change_is_seen() {
        let rubbish = Rubbish(0x1234_5678);
        for at in 0..2 * BESIDE + 8 {
            let mut lent: Lent<u8> = Lent::new(5, 3, rubbish);
            lent.all[at] ^= 1;
            let lent_at = at.checked_sub(BESIDE + 3);
            assert_eq!(lent.kept_before(), lent_at.is_some());
            assert_eq!(lent.kept_behind(), lent_at.is_none_or(|at| at < 5));
            let inside = lent_at.is_some_and(|at| at < 5);
            assert_eq!(lent.kept_from(0), !inside);
            assert_eq!(lent.kept_from(3), !inside || lent_at < Some(3));
        }
    }

    #[test]
    fn complements_differ_everywhere() {
        let (one, other) = (Rubbish(77), Rubbish(77).complement());
        for at in 0..10_000 {
            assert_eq!(u8::of(one, at), !u8::of(other, at));
            assert_eq!(u32::of(one, at), !u32::of(other, at));
            assert_eq!(usize::of(one, at), !usize::of(other, at));
        }
    }
}
