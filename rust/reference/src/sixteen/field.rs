//! The field of 16 with polynomial x^4 + x + 1.

/// The polynomial, bit i for x^i.
pub const POLYNOMIAL: u8 = 0b1_0011;
/// The root y.
pub const ROOT: u8 = 2;
/// The number of symbols.
pub const SYMBOLS: usize = 16;

/// The product of two symbols: the product of their polynomials, of which the
/// rest by the field's is left.
pub fn multiply(a: u8, b: u8) -> u8 {
    let whole = (0..4)
        .filter(|bit| b >> bit & 1 == 1)
        .fold(0, |sum, bit| sum ^ a << bit);
    (0..3)
        .rev()
        .fold(whole, |left, bit| match left >> (4 + bit) {
            0 => left,
            _ => left ^ POLYNOMIAL << bit,
        })
}

/// The power by repeated multiplication; a zeroth power is 1.
pub fn power(a: u8, exponent: usize) -> u8 {
    (0..exponent).fold(1, |product, _| multiply(product, a))
}

/// The inverse of a nonzero symbol, by looking for it.
pub fn inverse(a: u8) -> u8 {
    (1..SYMBOLS as u8)
        .find(|&b| multiply(a, b) == 1)
        .expect("a nonzero symbol has an inverse")
}

#[cfg(test)]
mod tests {
    use super::*;

    #[test]
    fn the_root_runs_through_every_nonzero_symbol() {
        let mut met: Vec<u8> = (0..15).map(|exponent| power(ROOT, exponent)).collect();
        met.sort_unstable();
        assert_eq!(met, (1..16).collect::<Vec<u8>>());
        assert_eq!(power(ROOT, 15), 1);
    }

    #[test]
    fn the_root_is_one_of_the_polynomial() {
        assert_eq!(power(ROOT, 4) ^ ROOT ^ 1, 0);
    }

    #[test]
    fn multiplication_is_a_fields() {
        for a in 0..16 {
            for b in 0..16 {
                assert!(multiply(a, b) < 16);
                assert_eq!(multiply(a, b), multiply(b, a));
                assert_eq!(multiply(a, b) == 0, a == 0 || b == 0);
                for c in 0..16 {
                    assert_eq!(multiply(a, b ^ c), multiply(a, b) ^ multiply(a, c));
                    assert_eq!(multiply(a, multiply(b, c)), multiply(multiply(a, b), c));
                }
            }
        }
        assert!((1..16).all(|a| multiply(a, inverse(a)) == 1));
    }
}
