//! The whole numbers modulo 257.

use crate::field::Field;

/// The modulus.
pub const MODULUS: u32 = 257;

#[derive(Clone, Copy, Debug, PartialEq, Eq)]
pub struct Field257;

/// The rest of a number by the modulus.
fn rest(number: u32) -> u16 {
    (number % MODULUS) as u16
}

impl Field for Field257 {
    type Symbol = u16;

    const ZERO: u16 = 0;
    const ONE: u16 = 1;
    const ROOT: u16 = 3;
    const ORDER: usize = 256;
    const RACK_SIZES: [u32; 5] = [1, 2, 4, 8, 16];
    const EDITION: u32 = 2;
    const BYTES: usize = 2;

    fn is_symbol(number: u16) -> bool {
        u32::from(number) < MODULUS
    }

    fn add(a: u16, b: u16) -> u16 {
        rest(u32::from(a) + u32::from(b))
    }

    fn negate(a: u16) -> u16 {
        rest(MODULUS - u32::from(a))
    }

    fn multiply(a: u16, b: u16) -> u16 {
        rest(u32::from(a) * u32::from(b))
    }
}

#[cfg(test)]
mod tests {
    use super::*;

    #[test]
    fn some_sums_and_products() {
        assert_eq!(Field257::add(256, 1), 0);
        assert_eq!(Field257::multiply(256, 256), 1);
        assert_eq!((Field257::negate(0), Field257::negate(1)), (0, 256));
        assert_eq!(Field257::subtract(3, 5), 255);
        assert_eq!(Field257::power(3, 128), 256);
        assert_eq!(
            (Field257::is_symbol(256), Field257::is_symbol(257)),
            (true, false)
        );
    }
}
