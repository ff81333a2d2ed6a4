//! The field of 257: the whole numbers modulo 257, with root 3.

use super::checks::Item;
use super::field::{add_by_digits, Field, Multiply};
use std::marker::PhantomData;
use std::ops::Range;

const PRIME: u16 = 257;
const ROOT: u16 = 3;
const ORDER: usize = u16::ORDER;

/// 16 bits have room for the sum of 255 symbols.
impl Field for u16 {
    const ORDER: usize = 256;
    const MINUS_ONE: u16 = 256;

    fn plus(self, symbol: u16) -> u16 {
        self + symbol
    }

    fn minus(self, symbol: u16) -> u16 {
        self + (PRIME - symbol)
    }

    fn reduce(sums: &mut [u16]) {
        for sum in sums {
            *sum %= PRIME;
        }
    }
}

fn wide(a: u16, b: u16) -> u32 {
    u32::from(a) * u32::from(b)
}

fn remainder(number: u32) -> u16 {
    (number % u32::from(PRIME)) as u16
}

/// A way to reduce products and their sums.
pub trait Reduce {
    type Sum: Copy + Default;

    fn product(a: u16, b: u16) -> u16;
    fn add(sum: &mut Self::Sum, a: u16, b: u16);
    fn symbol(sum: Self::Sum) -> u16;

    fn add_item(item: &Item<u16>, columns: (&[u8], &[u16]), checks: Range<usize>, sums: &mut [u16]);
}

/// By a division each time.
pub struct Remainder;

impl Reduce for Remainder {
    type Sum = u16;

    fn product(a: u16, b: u16) -> u16 {
        remainder(wide(a, b))
    }

    fn add(sum: &mut u16, a: u16, b: u16) {
        *sum = remainder(u32::from(*sum) + wide(a, b));
    }

    fn symbol(sum: u16) -> u16 {
        sum
    }

    fn add_item(
        item: &Item<u16>,
        columns: (&[u8], &[u16]),
        checks: Range<usize>,
        sums: &mut [u16],
    ) {
        add_by_digits(item, columns, checks, sums, Remainder::add);
    }
}

/// Sums at the end only, and products without a division: 256 is less one, so that the upper bits
/// are taken away from the lower eight.
pub struct Delayed;

impl Reduce for Delayed {
    /// With room for 65,535 products.
    type Sum = u32;

    fn product(a: u16, b: u16) -> u16 {
        let product = wide(a, b);
        let rest = (product & 255) as i16 - (product >> 8) as i16;
        (rest + (rest >> 15 & PRIME as i16)) as u16
    }

    fn add(sum: &mut u32, a: u16, b: u16) {
        *sum += wide(a, b);
    }

    fn symbol(sum: u32) -> u16 {
        remainder(sum)
    }

    /// The terms of a check are those of the one before times the points, which the compiler does
    /// eight at a time.
    fn add_item(
        item: &Item<u16>,
        (digits, symbols): (&[u8], &[u16]),
        checks: Range<usize>,
        sums: &mut [u16],
    ) {
        let by_digit = |powers: &[u16]| Vec::from_iter(digits.iter().map(|&d| powers[d as usize]));
        let mut terms = symbols.to_vec();
        let mut add = |factors: &[u16], sums: &mut [u16]| {
            for ((sum, term), &factor) in sums.iter_mut().zip(&mut terms).zip(factors) {
                *term = Delayed::product(*term, factor);
                *sum += *term;
            }
        };
        let mut rows = sums.chunks_mut(symbols.len());
        match (checks.start, rows.next()) {
            (_, None) => return,
            (0, Some(sums)) => add(&vec![1; symbols.len()], sums),
            (first, Some(sums)) => add(&by_digit(item.powers(first)), sums),
        }
        if checks.len() > 1 {
            let points = by_digit(item.powers(1));
            rows.for_each(|sums| add(&points, sums));
        }
    }
}

/// Products and their sums, reduced in one of these ways.
pub struct Modulo257<R> {
    powers: [u16; ORDER],
    inverses: [u16; PRIME as usize],
    way: PhantomData<R>,
}

impl<R> Modulo257<R> {
    pub fn new() -> Modulo257<R> {
        let (mut powers, mut inverses) = ([1; ORDER], [0; PRIME as usize]);
        for exponent in 1..ORDER {
            powers[exponent] = Remainder::product(powers[exponent - 1], ROOT);
        }
        for exponent in 0..ORDER {
            inverses[powers[exponent] as usize] = powers[(ORDER - exponent) % ORDER];
        }
        Modulo257 {
            powers,
            inverses,
            way: PhantomData,
        }
    }
}

impl<R: Reduce> Multiply for Modulo257<R> {
    type Symbol = u16;
    type Sum = R::Sum;

    fn product(&self, a: u16, b: u16) -> u16 {
        R::product(a, b)
    }

    fn inverse(&self, a: u16) -> u16 {
        self.inverses[a as usize]
    }

    fn root_power(&self, exponent: usize) -> u16 {
        self.powers[exponent % ORDER]
    }

    fn add(&self, sum: &mut R::Sum, a: u16, b: u16) {
        R::add(sum, a, b);
    }

    fn symbols(sums: Vec<R::Sum>) -> Vec<u16> {
        sums.into_iter().map(R::symbol).collect()
    }

    fn take(&self, from: &mut u16, a: u16, b: u16) {
        *from = remainder(u32::from(*from) + wide(PRIME - a, b));
    }

    fn add_item(
        &self,
        item: &Item<u16>,
        columns: (&[u8], &[u16]),
        checks: Range<usize>,
        sums: &mut [u16],
    ) {
        R::add_item(item, columns, checks, sums);
    }
}
