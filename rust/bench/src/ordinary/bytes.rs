//! The field of 256 with polynomial 11D and root 2, by tables.

use super::checks::Item;
use super::field::{add_by_digits, Field, Multiply};
use std::ops::Range;

/// The size of a table by symbol.
const SYMBOLS: usize = 256;
const ORDER: usize = u8::ORDER;

impl Field for u8 {
    const ORDER: usize = 255;
    const MINUS_ONE: u8 = 1;

    fn plus(self, symbol: u8) -> u8 {
        self ^ symbol
    }

    fn minus(self, symbol: u8) -> u8 {
        self ^ symbol
    }

    fn reduce(_sums: &mut [u8]) {}
}

/// Products by a table or two.
trait Tables {
    fn product(&self, a: u8, b: u8) -> u8;
    fn small(&self) -> &LogExp;
}

impl<T: Tables> Multiply for T {
    type Symbol = u8;
    type Sum = u8;

    fn product(&self, a: u8, b: u8) -> u8 {
        Tables::product(self, a, b)
    }

    fn inverse(&self, a: u8) -> u8 {
        let small = self.small();
        small.exp[ORDER - small.log[a as usize] as usize]
    }

    fn root_power(&self, exponent: usize) -> u8 {
        self.small().exp[exponent % ORDER]
    }

    fn add(&self, sum: &mut u8, a: u8, b: u8) {
        *sum ^= Tables::product(self, a, b);
    }

    fn symbols(sums: Vec<u8>) -> Vec<u8> {
        sums
    }

    fn take(&self, from: &mut u8, a: u8, b: u8) {
        self.add(from, a, b);
    }

    fn add_item(
        &self,
        item: &Item<u8>,
        columns: (&[u8], &[u8]),
        checks: Range<usize>,
        sums: &mut [u8],
    ) {
        add_by_digits(item, columns, checks, sums, |sum, a, b| self.add(sum, a, b));
    }
}

/// Products by adding logarithms: two small tables.
pub struct LogExp {
    log: [u8; SYMBOLS],
    /// The powers twice over, so that a sum of two logarithms needs no remainder.
    exp: [u8; 2 * SYMBOLS],
}

impl LogExp {
    pub fn new() -> LogExp {
        let (mut log, mut exp) = ([0; SYMBOLS], [0; 2 * SYMBOLS]);
        let mut power = 1u16;
        for exponent in 0..ORDER {
            log[power as usize] = exponent as u8;
            exp[exponent] = power as u8;
            exp[exponent + ORDER] = power as u8;
            power <<= 1;
            if power & 0x100 != 0 {
                power ^= 0x11D;
            }
        }
        LogExp { log, exp }
    }
}

impl Tables for LogExp {
    fn product(&self, a: u8, b: u8) -> u8 {
        if a == 0 || b == 0 {
            return 0;
        }
        self.exp[self.log[a as usize] as usize + self.log[b as usize] as usize]
    }

    fn small(&self) -> &LogExp {
        self
    }
}

/// Products read from a table of all of them: 64 KiB.
pub struct ProductTable {
    products: Box<[[u8; SYMBOLS]; SYMBOLS]>,
    small: LogExp,
}

impl ProductTable {
    pub fn new() -> ProductTable {
        let small = LogExp::new();
        let mut products = Box::new([[0; SYMBOLS]; SYMBOLS]);
        for (a, row) in (0..=255).zip(products.iter_mut()) {
            for (b, product) in (0..=255).zip(row.iter_mut()) {
                *product = Tables::product(&small, a, b);
            }
        }
        ProductTable { products, small }
    }
}

impl Tables for ProductTable {
    fn product(&self, a: u8, b: u8) -> u8 {
        self.products[a as usize][b as usize]
    }

    fn small(&self) -> &LogExp {
        &self.small
    }
}
