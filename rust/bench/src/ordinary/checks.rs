//! Checks over columns: those of all layers at once, or those of all groups.

use super::field::Multiply;
use super::system::minus_inverse;
use std::ops::Range;

/// What stands in every column: a tray in the layers, or a rack in the groups.
pub struct Item<S> {
    /// Which row of digits its point goes by.
    row: usize,
    base: usize,
    /// The powers of its point, by check and then by digit.
    powers: Vec<S>,
}

impl<S> Item<S> {
    /// The t-th powers of its point, by its digit.
    pub fn powers(&self, t: usize) -> &[S] {
        &self.powers[t * self.base..][..self.base]
    }
}

/// In each column check t says that the items' symbols, each times the t-th power of the item's
/// point there, have the sum zero. Symbols of an item and sums of a check lie column after column.
pub struct Checks<'a, M> {
    multiply: &'a M,
    base: usize,
    count: usize,
    columns: usize,
    /// Row i has digit i of every column.
    rows: Vec<Vec<u8>>,
}

impl<'a, M: Multiply> Checks<'a, M> {
    pub fn new(multiply: &'a M, base: usize, count: usize, rows: usize) -> Checks<'a, M> {
        let columns = base.pow(rows as u32);
        let digits = |i| {
            let mut row = vec![0; columns];
            for (k, run) in row.chunks_mut(base.pow(i)).enumerate() {
                run.fill((k % base) as u8);
            }
            row
        };
        Checks {
            multiply,
            base,
            count,
            columns,
            rows: (0..rows as u32).map(digits).collect(),
        }
    }

    /// The item whose point goes by a row of digits: the root to this power of the digit.
    pub fn item(&self, row: usize, exponent: impl Fn(usize) -> usize) -> Item<M::Symbol> {
        let powers = (0..self.count)
            .flat_map(|t| (0..self.base).map(move |digit| (t, digit)))
            .map(|(t, digit)| self.multiply.root_power(exponent(digit) * t));
        Item {
            row,
            base: self.base,
            powers: powers.collect(),
        }
    }

    /// Adds an item's part to the sums of some checks.
    pub fn add(
        &self,
        item: &Item<M::Symbol>,
        symbols: &[M::Symbol],
        checks: Range<usize>,
        sums: &mut [M::Symbol],
    ) {
        let digits = &self.rows[item.row];
        self.multiply
            .add_item(item, (digits, symbols), checks, sums);
    }

    /// For each column the number of the pattern that some rows of digits have there.
    fn patterns(&self, rows: &[usize]) -> Vec<usize> {
        let mut patterns = vec![0; self.columns];
        for &row in rows {
            for (pattern, &digit) in patterns.iter_mut().zip(&self.rows[row]) {
                *pattern = *pattern * self.base + digit as usize;
            }
        }
        patterns
    }

    /// An item's digit in a column.
    pub fn digit(&self, item: &Item<M::Symbol>, column: usize) -> usize {
        self.rows[item.row][column] as usize
    }

    /// An item's point in a column.
    pub fn point(&self, item: &Item<M::Symbol>, column: usize) -> M::Symbol {
        item.powers(1)[self.digit(item, column)]
    }

    /// For each column the number of the pattern that the items' digits have there, and for each
    /// pattern a column that has it.
    pub fn patterns_of(&self, items: &[Item<M::Symbol>]) -> (Vec<usize>, Vec<usize>) {
        let mut rows: Vec<usize> = items.iter().map(|item| item.row).collect();
        rows.dedup();
        let patterns = self.patterns(&rows);
        let mut columns = vec![0; self.base.pow(rows.len() as u32)];
        for (column, &pattern) in patterns.iter().enumerate() {
            columns[pattern] = column;
        }
        (patterns, columns)
    }

    /// Less the inverse of the system of some items in a column.
    fn minus_inverse(&self, items: &[&Item<M::Symbol>], column: usize) -> Vec<M::Symbol> {
        minus_inverse(self.multiply, items.len(), |t, c| {
            let digit = self.rows[items[c].row][column];
            items[c].powers(t)[digit as usize]
        })
    }

    /// The symbols of the first `wanted` of the unknown items, one item after another, from the
    /// others' sums in the first checks. A system is inverted once for each pattern of the digits
    /// it hangs on.
    pub fn solve(
        &self,
        unknown: &[&Item<M::Symbol>],
        wanted: usize,
        sums: &[M::Symbol],
    ) -> Vec<M::Symbol> {
        let mut rows: Vec<usize> = unknown.iter().map(|item| item.row).collect();
        rows.dedup();
        let patterns = self.patterns(&rows);
        let mut inverses = vec![Vec::new(); self.base.pow(rows.len() as u32)];
        for (column, &pattern) in patterns.iter().enumerate() {
            if inverses[pattern].is_empty() {
                inverses[pattern] = self.minus_inverse(unknown, column);
            }
        }
        let mut found = vec![M::Sum::default(); wanted * self.columns];
        for (c, symbols) in found.chunks_mut(self.columns).enumerate() {
            for (t, sums) in sums.chunks(self.columns).take(unknown.len()).enumerate() {
                let entry = c * unknown.len() + t;
                for ((symbol, &sum), &pattern) in symbols.iter_mut().zip(sums).zip(&patterns) {
                    self.multiply.add(symbol, inverses[pattern][entry], sum);
                }
            }
        }
        M::symbols(found)
    }
}
