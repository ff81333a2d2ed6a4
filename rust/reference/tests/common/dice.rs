//! Numbers for the tests.

use super::Tried;

/// Numbers that differ by seed and follow no pattern of the code's.
pub struct Dice(u64);

impl Dice {
    pub fn new(seed: u64) -> Dice {
        Dice(seed.wrapping_mul(0x9E37_79B9_7F4A_7C15) | 1)
    }

    pub fn byte(&mut self) -> u8 {
        self.0 = self
            .0
            .wrapping_mul(6_364_136_223_846_793_005)
            .wrapping_add(1_442_695_040_888_963_407);
        (self.0 >> 56) as u8
    }

    pub fn bytes(&mut self, length: usize) -> Vec<u8> {
        (0..length).map(|_| self.byte()).collect()
    }

    pub fn symbols<F: Tried>(&mut self, length: usize) -> Vec<F::Symbol> {
        (0..length).map(|_| F::draw(self)).collect()
    }

    /// A symbol that isn't zero.
    pub fn nonzero<F: Tried>(&mut self) -> F::Symbol {
        loop {
            let symbol = F::draw(self);
            if symbol != F::ZERO {
                return symbol;
            }
        }
    }

    /// A number below a bound of at most 65,536.
    pub fn below(&mut self, bound: usize) -> usize {
        (usize::from(self.byte()) << 8 | usize::from(self.byte())) % bound
    }

    /// So many of the numbers below a bound, rising.
    pub fn choose(&mut self, count: usize, bound: usize) -> Vec<usize> {
        let mut left: Vec<usize> = (0..bound).collect();
        while left.len() > count {
            left.remove(self.below(left.len()));
        }
        left
    }

    pub fn shuffle<T>(&mut self, list: &mut [T]) {
        for at in 1..list.len() {
            list.swap(at, self.below(at + 1));
        }
    }
}
