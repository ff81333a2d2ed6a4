//! Polynomials over the field of 16, the lowest coefficient first.

use super::field::{inverse, multiply};

/// The value at a point.
pub fn value(polynomial: &[u8], point: u8) -> u8 {
    polynomial
        .iter()
        .rev()
        .fold(0, |sum, &coefficient| multiply(sum, point) ^ coefficient)
}

/// The one polynomial of degree below the number of pairs that has each pair's
/// value at its point. The points differ.
///
/// One pair after another is met by adding a multiple of the product of
/// (x − q) over the points q met so far, which leaves the values there.
pub fn through(pairs: &[(u8, u8)]) -> Vec<u8> {
    let mut found = vec![0; pairs.len()];
    let mut vanishing = vec![1];
    for &(point, wanted) in pairs {
        let lacking = wanted ^ value(&found, point);
        let factor = multiply(lacking, inverse(value(&vanishing, point)));
        for (coefficient, &of_vanishing) in found.iter_mut().zip(&vanishing) {
            *coefficient ^= multiply(factor, of_vanishing);
        }
        vanishing = times_difference(&vanishing, point);
    }
    found
}

/// The polynomial times (x − point).
fn times_difference(polynomial: &[u8], point: u8) -> Vec<u8> {
    let mut product = [&[0], polynomial].concat();
    for (coefficient, &factor) in product.iter_mut().zip(polynomial) {
        *coefficient ^= multiply(factor, point);
    }
    product
}

#[cfg(test)]
mod tests {
    use super::*;

    #[test]
    fn it_goes_through_its_pairs() {
        let pairs = [(0, 9), (3, 0), (7, 7), (15, 1), (2, 13)];
        let found = through(&pairs);
        assert_eq!(found.len(), 5);
        assert!(pairs
            .iter()
            .all(|&(point, wanted)| value(&found, point) == wanted));
    }

    #[test]
    fn it_is_found_again() {
        let polynomial = [4, 0, 11, 6];
        let pairs = [5, 0, 14, 9].map(|point| (point, value(&polynomial, point)));
        assert_eq!(through(&pairs), polynomial);
        assert_eq!(through(&[]), []);
    }
}
