//! The field of 256 with polynomial x^8 + x^4 + x^3 + x^2 + 1.

use crate::field::Field;

/// The polynomial, bit i for x^i.
pub const POLYNOMIAL: u16 = 0x11D;

#[derive(Clone, Copy, Debug, PartialEq, Eq)]
pub struct Field256;

impl Field for Field256 {
    type Symbol = u8;

    const ZERO: u8 = 0;
    const ONE: u8 = 1;
    const ROOT: u8 = 2;
    const ORDER: usize = 255;
    const RACK_SIZES: [u32; 5] = [1, 3, 5, 15, 17];
    const EDITION: u32 = 1;
    const BYTES: usize = 1;

    fn is_symbol(_: u8) -> bool {
        true
    }

    fn add(a: u8, b: u8) -> u8 {
        a ^ b
    }

    fn negate(a: u8) -> u8 {
        a
    }

    /// The product: b's bits from the lowest, a doubled at each.
    fn multiply(a: u8, b: u8) -> u8 {
        let mut sum = 0;
        let mut doubled = u16::from(a);
        for bit in 0..8 {
            if b >> bit & 1 == 1 {
                sum ^= doubled;
            }
            doubled <<= 1;
            if doubled & 0x100 != 0 {
                doubled ^= POLYNOMIAL;
            }
        }
        sum as u8
    }
}

#[cfg(test)]
mod tests {
    use super::*;

    #[test]
    fn the_eighth_power_of_the_root_is_the_polynomial_without_its_top() {
        assert_eq!(Field256::power(Field256::ROOT, 8), 0x1D);
    }
}
