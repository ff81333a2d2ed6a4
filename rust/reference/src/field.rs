//! What the calls need of a field, and what they do alike in both.

use std::fmt::Debug;

/// A field: its symbols as they are lent, its root, and what goes by the field
/// in layouts and images.
pub trait Field: Copy + Debug + Eq + 'static {
    /// A symbol as it is lent. Not every number of this type need be one.
    type Symbol: Copy + Debug + Eq + Into<u16> + TryFrom<u16, Error: Debug>;

    const ZERO: Self::Symbol;
    const ONE: Self::Symbol;
    /// The root z.
    const ROOT: Self::Symbol;
    /// The number of powers of the root.
    const ORDER: usize;
    /// The rack sizes that can be had.
    const RACK_SIZES: [u32; 5];
    /// The edition of its tray images.
    const EDITION: u32;
    /// The bytes of a symbol in a tray image.
    const BYTES: usize;

    /// Whether a number that is lent is a symbol. The operations are for
    /// symbols only.
    fn is_symbol(number: Self::Symbol) -> bool;

    fn add(a: Self::Symbol, b: Self::Symbol) -> Self::Symbol;

    /// The symbol that gives zero with this one.
    fn negate(a: Self::Symbol) -> Self::Symbol;

    fn multiply(a: Self::Symbol, b: Self::Symbol) -> Self::Symbol;

    fn subtract(a: Self::Symbol, b: Self::Symbol) -> Self::Symbol {
        Self::add(a, Self::negate(b))
    }

    fn sum(terms: impl IntoIterator<Item = Self::Symbol>) -> Self::Symbol {
        terms.into_iter().fold(Self::ZERO, Self::add)
    }

    /// The power by repeated multiplication; a zeroth power is 1.
    fn power(a: Self::Symbol, exponent: usize) -> Self::Symbol {
        (0..exponent).fold(Self::ONE, |product, _| Self::multiply(product, a))
    }

    /// The inverse of a nonzero symbol: its power one below the order, by the
    /// bits of that number.
    fn inverse(a: Self::Symbol) -> Self::Symbol {
        let (mut square, mut product, mut bits) = (a, Self::ONE, Self::ORDER - 1);
        while bits > 0 {
            if bits & 1 == 1 {
                product = Self::multiply(product, square);
            }
            square = Self::multiply(square, square);
            bits >>= 1;
        }
        product
    }

    /// Whether all of these numbers are symbols.
    fn are_symbols(numbers: &[Self::Symbol]) -> bool {
        numbers.iter().all(|&number| Self::is_symbol(number))
    }
}

#[cfg(test)]
mod tests {
    use super::*;
    use crate::{Field256, Field257};

    fn symbols<F: Field>() -> Vec<F::Symbol> {
        let all = (0..=u16::MAX).map_while(|number| F::Symbol::try_from(number).ok());
        all.filter(|&number| F::is_symbol(number)).collect()
    }

    fn the_root_runs_through_every_nonzero_symbol<F: Field>() {
        let powers: Vec<F::Symbol> = (0..F::ORDER).map(|e| F::power(F::ROOT, e)).collect();
        let met = |symbol: &F::Symbol| powers.contains(symbol);
        let (zero, others) = (&symbols::<F>()[0], &symbols::<F>()[1..]);
        assert!(!met(zero) && *zero == F::ZERO);
        assert!(others.iter().all(met) && others.len() == F::ORDER);
        assert_eq!(F::power(F::ROOT, F::ORDER), F::ONE);
    }

    fn inverses_invert<F: Field>() {
        for &a in &symbols::<F>()[1..] {
            assert_eq!(F::multiply(a, F::inverse(a)), F::ONE);
        }
    }

    fn the_laws_hold<F: Field>() {
        for &a in &symbols::<F>() {
            assert_eq!(F::add(a, F::negate(a)), F::ZERO);
            assert_eq!((F::add(a, F::ZERO), F::multiply(a, F::ONE)), (a, a));
            for &b in &symbols::<F>() {
                assert_eq!(F::multiply(a, b), F::multiply(b, a));
                assert_eq!(F::multiply(a, b) == F::ZERO, a == F::ZERO || b == F::ZERO);
                assert_eq!(F::add(a, b), F::add(b, a));
                assert_eq!(F::add(F::subtract(a, b), b), a);
                let c = F::add(F::multiply(a, F::ROOT), b);
                let apart = F::add(F::multiply(a, b), F::multiply(a, c));
                assert_eq!(F::multiply(a, F::add(b, c)), apart);
                let inner = F::multiply(a, F::multiply(b, c));
                assert_eq!(inner, F::multiply(F::multiply(a, b), c));
                assert_eq!(F::add(a, F::add(b, c)), F::add(F::add(a, b), c));
                assert!(F::is_symbol(c) && F::is_symbol(inner));
            }
        }
    }

    fn is_a_field<F: Field>() {
        the_root_runs_through_every_nonzero_symbol::<F>();
        inverses_invert::<F>();
        the_laws_hold::<F>();
    }

    #[test]
    fn both_are_fields() {
        is_a_field::<Field256>();
        is_a_field::<Field257>();
    }

    #[test]
    fn as_many_symbols_as_they_say() {
        assert_eq!(symbols::<Field256>().len(), 256);
        assert_eq!(symbols::<Field257>().len(), 257);
    }
}
