//! What the calls ask of a field, and of a way to multiply in it.

use super::checks::Item;
use std::ops::Range;

/// A field, by its symbols as they are lent. A sum that grows is a number of the same width and is
/// reduced to a symbol at the end: there is room for more symbols than a call adds up.
pub trait Field: Copy + Default + PartialEq {
    /// The order of the root.
    const ORDER: usize;
    const MINUS_ONE: Self;

    fn plus(self, symbol: Self) -> Self;
    fn minus(self, symbol: Self) -> Self;

    /// Reduces sums to symbols.
    fn reduce(sums: &mut [Self]);
}

/// A way to multiply.
pub trait Multiply {
    type Symbol: Field;
    /// A sum of products as long as it grows.
    type Sum: Copy + Default;

    fn product(&self, a: Self::Symbol, b: Self::Symbol) -> Self::Symbol;

    /// The inverse of a symbol that is not zero.
    fn inverse(&self, a: Self::Symbol) -> Self::Symbol;

    /// The root to a power.
    fn root_power(&self, exponent: usize) -> Self::Symbol;

    /// Adds a product to a sum.
    fn add(&self, sum: &mut Self::Sum, a: Self::Symbol, b: Self::Symbol);

    /// The symbols that sums are.
    fn symbols(sums: Vec<Self::Sum>) -> Vec<Self::Symbol>;

    /// Takes a product away from a symbol.
    fn take(&self, from: &mut Self::Symbol, a: Self::Symbol, b: Self::Symbol);

    /// Adds an item's part to the sums of some checks, which lie one after another. The columns are
    /// the item's digits there, which say the points, and its symbols.
    fn add_item(
        &self,
        item: &Item<Self::Symbol>,
        columns: (&[u8], &[Self::Symbol]),
        checks: Range<usize>,
        sums: &mut [Self::Symbol],
    );
}

/// Adds an item's part by the powers of its points and a way to add a product.
pub fn add_by_digits<S: Field>(
    item: &Item<S>,
    (digits, symbols): (&[u8], &[S]),
    checks: Range<usize>,
    sums: &mut [S],
    add: impl Fn(&mut S, S, S),
) {
    for (t, sums) in checks.zip(sums.chunks_mut(symbols.len())) {
        let powers = item.powers(t);
        for ((sum, &symbol), &digit) in sums.iter_mut().zip(symbols).zip(digits) {
            add(sum, powers[digit as usize], symbol);
        }
    }
}
