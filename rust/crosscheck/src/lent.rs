//! Buffers lent to the library, with guarded ends.

use crate::field::{symbol, Symbol};
use gesarumbo::ScrubRecord;
use std::hint::black_box;

/// How many places stand before and after a lent part.
const GUARD: usize = 32;

/// A buffer lent as the middle part of a larger one.
pub struct Lent<T> {
    whole: Vec<T>,
    as_lent: Vec<T>,
}

/// What stands in a guarded place.
pub trait Guarded: Copy + PartialEq {
    fn guard(at: usize) -> Self;
}

impl Guarded for u8 {
    fn guard(at: usize) -> u8 {
        (at * 151 + 77) as u8
    }
}

/// Symbols, and numbers above them.
impl Guarded for u16 {
    fn guard(at: usize) -> u16 {
        (at * 24_991 + 77) as u16
    }
}

impl Lent<u8> {
    pub fn bytes(part: &[u8]) -> Lent<u8> {
        Lent::new(part.iter().copied(), u8::guard)
    }
}

impl Lent<ScrubRecord> {
    /// A walk's record, between others.
    pub fn record(record: ScrubRecord) -> Lent<ScrubRecord> {
        Lent::new([record].into_iter(), |at| {
            ScrubRecord::new(at as u32, !at as u32, 77)
        })
    }
}

impl<T: Copy + PartialEq> Lent<T> {
    /// Numbers as a field's symbols are lent.
    pub fn symbols<F: reference::Field<Symbol = T>>(part: &[Symbol]) -> Lent<T>
    where
        T: Guarded,
    {
        Lent::new(part.iter().map(|&number| symbol::<F>(number)), T::guard)
    }

    /// A list of numbers of a kind.
    pub fn list(numbers: &[u32], kind: fn(u32) -> T) -> Lent<T> {
        Lent::new(numbers.iter().map(|&number| kind(number)), |at| {
            kind(at as u32)
        })
    }

    fn new(part: impl Iterator<Item = T>, guard: impl Fn(usize) -> T) -> Lent<T> {
        let mut whole: Vec<T> = (0..GUARD).map(&guard).collect();
        whole.extend(part);
        whole.extend((GUARD..2 * GUARD).map(guard));
        Lent {
            as_lent: whole.clone(),
            whole,
        }
    }

    pub fn part(&self) -> &[T] {
        &self.whole[GUARD..self.whole.len() - GUARD]
    }

    pub fn part_mut(&mut self) -> &mut [T] {
        let end = self.whole.len() - GUARD;
        &mut self.whole[GUARD..end]
    }

    /// The part as it was when lent.
    pub fn before(&self) -> &[T] {
        &self.as_lent[GUARD..self.as_lent.len() - GUARD]
    }

    /// Whether the ends are as they were.
    pub fn ends_kept(&self) -> bool {
        let end = self.whole.len() - GUARD;
        let now = black_box(&self.whole);
        now[..GUARD] == self.as_lent[..GUARD] && now[end..] == self.as_lent[end..]
    }

    /// Whether all of it is as it was.
    pub fn kept(&self) -> bool {
        *black_box(&self.whole) == self.as_lent
    }
}

#[cfg(test)]
mod tests {
    use super::*;
    use reference::{Field256, Field257};

    fn a_touched_end_is_seen<F: reference::Field<Symbol: Guarded>>() {
        for at in [0, GUARD - 1, GUARD + 3, 2 * GUARD + 2] {
            let mut lent = Lent::symbols::<F>(&[1, 2, 3]);
            assert!(lent.ends_kept() && lent.kept());
            let other: u16 = lent.whole[at].into();
            lent.whole[at] = symbol::<F>(other ^ 1);
            assert!(!lent.ends_kept() && !lent.kept());
        }
    }

    #[test]
    fn touched_ends_are_seen() {
        a_touched_end_is_seen::<Field256>();
        a_touched_end_is_seen::<Field257>();
    }

    #[test]
    fn a_written_part_leaves_the_ends() {
        let mut lent = Lent::symbols::<Field257>(&[1, 2, 300]);
        lent.part_mut()[2] = 9;
        assert!(lent.ends_kept() && !lent.kept());
        assert_eq!(
            (lent.before(), lent.part()),
            (&[1, 2, 300][..], &[1, 2, 9][..])
        );
    }
}
