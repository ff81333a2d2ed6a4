//! Systems of as many checks as there are unknowns.

use super::field::{Field, Multiply};

/// Less the inverse of a square system, row after row, by elimination. `entry(t, c)` is the t-th
/// power of the point of unknown c, and the points differ.
pub fn minus_inverse<M: Multiply>(
    multiply: &M,
    count: usize,
    entry: impl Fn(usize, usize) -> M::Symbol,
) -> Vec<M::Symbol> {
    let (zero, minus_one) = (M::Symbol::default(), M::Symbol::MINUS_ONE);
    let mut rows: Vec<Vec<M::Symbol>> = (0..count)
        .map(|t| {
            let left = (0..count).map(|c| entry(t, c));
            let right = (0..count).map(|c| if c == t { minus_one } else { zero });
            left.chain(right).collect()
        })
        .collect();
    for c in 0..count {
        // Never zero: the first rows and columns are such a system too.
        let factor = multiply.inverse(rows[c][c]);
        let pivot: Vec<M::Symbol> = rows[c]
            .iter()
            .map(|&a| multiply.product(factor, a))
            .collect();
        for row in &mut rows {
            let factor = row[c];
            for (sum, &a) in row.iter_mut().zip(&pivot) {
                multiply.take(sum, factor, a);
            }
        }
        rows[c] = pivot;
    }
    rows.iter().flat_map(|row| &row[count..]).copied().collect()
}
