//! A random generator that gives the same numbers for the same seed.

use crate::field::{Field, Symbol};

/// The generator xorshift64*.
pub struct Random(u64);

impl Random {
    /// A state of zero would stay zero, so seed 0 stands for another.
    pub fn new(seed: u64) -> Random {
        Random(if seed == 0 {
            0x9E37_79B9_7F4A_7C15
        } else {
            seed
        })
    }

    pub fn word(&mut self) -> u64 {
        self.0 ^= self.0 >> 12;
        self.0 ^= self.0 << 25;
        self.0 ^= self.0 >> 27;
        self.0.wrapping_mul(0x2545_F491_4F6C_DD1D)
    }

    /// A number below a bound that is not zero.
    pub fn below(&mut self, bound: usize) -> usize {
        (self.word() >> 11) as usize % bound
    }

    /// A place of so many: the first, the last, or any.
    pub fn place(&mut self, count: usize) -> usize {
        match self.below(4) {
            0 => 0,
            1 => count - 1,
            _ => self.below(count),
        }
    }

    /// True once in so many times.
    pub fn one_in(&mut self, times: usize) -> bool {
        self.below(times) == 0
    }

    pub fn pick<T: Copy>(&mut self, list: &[T]) -> T {
        list[self.below(list.len())]
    }

    pub fn byte(&mut self) -> u8 {
        (self.word() >> 56) as u8
    }

    pub fn bytes(&mut self, length: usize) -> Vec<u8> {
        (0..length).map(|_| self.byte()).collect()
    }

    pub fn symbol(&mut self, field: Field) -> Symbol {
        self.below(field.symbols()) as Symbol
    }

    pub fn nonzero(&mut self, field: Field) -> Symbol {
        1 + self.below(field.symbols() - 1) as Symbol
    }

    /// Symbols of all kinds, or of the least and the greatest only.
    pub fn symbols(&mut self, field: Field, length: usize) -> Vec<Symbol> {
        if self.one_in(8) {
            let greatest = field.symbols() as Symbol - 1;
            let ends = [0, 1, greatest - 1, greatest];
            return (0..length).map(|_| self.pick(&ends)).collect();
        }
        (0..length).map(|_| self.symbol(field)).collect()
    }

    /// A number that can be lent as a symbol of the field of 257 and is none.
    pub fn above(&mut self) -> Symbol {
        let any = 257 + self.below(65_536 - 257) as Symbol;
        self.pick(&[257, 258, 512, 513, 0x8000, 0xFF00, 0xFFFF, any])
    }

    /// A number to be lent as a symbol: one, or in the field of 257 none half of
    /// the time.
    pub fn lendable(&mut self, field: Field) -> Symbol {
        if field == Field::Of257 && self.one_in(2) {
            self.above()
        } else {
            self.symbol(field)
        }
    }

    /// What a buffer holds that nobody looks at.
    pub fn noise(&mut self, field: Field, length: usize) -> Vec<Symbol> {
        (0..length).map(|_| self.lendable(field)).collect()
    }

    /// So many of the numbers given, in their order there.
    pub fn some_of(&mut self, count: usize, mut numbers: Vec<u32>) -> Vec<u32> {
        while numbers.len() > count {
            let at = self.below(numbers.len());
            numbers.remove(at);
        }
        numbers
    }
}

#[cfg(test)]
mod tests {
    use super::*;

    #[test]
    fn the_first_numbers_of_seed_1() {
        let mut random = Random::new(1);
        assert_eq!(random.word(), 5_180_492_295_206_395_165);
        assert_ne!(random.word(), random.word());
    }

    #[test]
    fn symbols_are_below_their_number() {
        let mut random = Random::new(3);
        for field in [Field::Of256, Field::Of257] {
            let drawn = random.symbols(field, 10_000);
            let greatest = drawn.iter().copied().max();
            assert_eq!(greatest, Some(field.symbols() as Symbol - 1));
        }
        assert!((0..1000).all(|_| random.above() > 256));
        assert!((0..1000).all(|_| random.lendable(Field::Of256) < 256));
    }

    #[test]
    fn some_of_keeps_the_order() {
        let mut random = Random::new(2);
        for count in 0..10 {
            let some = random.some_of(count, (0..10).collect());
            assert_eq!(some.len(), count);
            assert!(some.windows(2).all(|pair| pair[0] < pair[1]));
        }
    }
}
