//! The repair of a tray from shares of which one may be wrong.
//!
//! In each group the polynomial that is zero at the points of all unknowns takes these out of the
//! checks: two sums are left, which are zero where the shares are right. A wrong share makes the
//! second the first times its point there, and the point says whose it is.

use super::checks::{Checks, Item};
use super::field::{Field, Multiply};
use super::groups::{write, Summed};
use gesarumbo::Numbers;

/// Repairs a whole tray, and names the helper whose share is wrong. Not more than one may be.
pub fn correct<M: Multiply>(
    multiply: &M,
    numbers: &Numbers,
    lost: usize,
    helpers: &[usize],
    shares: &[M::Symbol],
    host_rack: &[M::Symbol],
    spare: &mut [M::Symbol],
) -> Option<usize> {
    let summed = Summed::new(multiply, numbers, lost / numbers.size);
    let mut sums = summed.sums(helpers, shares);
    let unknown = summed.unknown(helpers);
    let left = Left::of(multiply, &summed.checks, &unknown, &sums);
    let racks = helpers.iter().map(|&helper| (helper, summed.rack(helper)));
    let named = left.first().map(|group| {
        let mut racks = racks.filter(|(_, rack)| left.fits(rack, group));
        let (helper, rack) = racks.next().expect("one share is wrong");
        let groups = left.zeroth.len();
        assert!((0..groups).all(|group| left.fits(&rack, group)));
        let added = left.to_be_added(&rack);
        let checks = &summed.checks;
        checks.add(&rack, &added, 0..numbers.parity_racks, &mut sums);
        M::Symbol::reduce(&mut sums);
        helper
    });
    let host_sums = summed.host_sums(helpers, &sums);
    write(numbers, lost, &host_sums, host_rack, spare);
    named
}

/// What is left of the checks, group after group.
struct Left<'a, M: Multiply> {
    multiply: &'a M,
    checks: &'a Checks<'a, M>,
    zeroth: Vec<M::Symbol>,
    first: Vec<M::Symbol>,
    /// The polynomial of each pattern of digits, the lowest coefficient first; and the groups'
    /// patterns.
    polynomials: Vec<Vec<M::Symbol>>,
    patterns: Vec<usize>,
}

impl<'a, M: Multiply> Left<'a, M> {
    fn of(
        multiply: &'a M,
        checks: &'a Checks<'a, M>,
        unknown: &[Item<M::Symbol>],
        sums: &[M::Symbol],
    ) -> Left<'a, M> {
        let (patterns, columns) = checks.patterns_of(unknown);
        let polynomial = |&column: &usize| {
            let points = unknown.iter().map(|item| checks.point(item, column));
            zero_at(multiply, points)
        };
        let polynomials: Vec<Vec<M::Symbol>> = columns.iter().map(polynomial).collect();
        let groups = patterns.len();
        let sum = |from: usize| {
            let mut left = vec![M::Sum::default(); groups];
            let rows = sums.chunks(groups).skip(from);
            for (t, sums) in rows.take(unknown.len() + 1).enumerate() {
                for ((left, &sum), &pattern) in left.iter_mut().zip(sums).zip(&patterns) {
                    multiply.add(left, polynomials[pattern][t], sum);
                }
            }
            M::symbols(left)
        };
        Left {
            multiply,
            checks,
            zeroth: sum(0),
            first: sum(1),
            polynomials,
            patterns,
        }
    }

    /// The first group in which something is left.
    fn first(&self) -> Option<usize> {
        let zero = M::Symbol::default();
        let left = self.zeroth.iter().zip(&self.first);
        left.enumerate()
            .find(|(_, (&zeroth, &first))| zeroth != zero || first != zero)
            .map(|(group, _)| group)
    }

    /// Whether what is left in a group can be this rack's.
    fn fits(&self, rack: &Item<M::Symbol>, group: usize) -> bool {
        let point = self.checks.point(rack, group);
        self.multiply.product(point, self.zeroth[group]) == self.first[group]
    }

    /// What has to be added to the rack's share so that nothing is left.
    fn to_be_added(&self, rack: &Item<M::Symbol>) -> Vec<M::Symbol> {
        let base = rack.powers(1).len();
        let values = self.polynomials.iter().flat_map(|polynomial| {
            let value = |&point: &M::Symbol| value(self.multiply, polynomial, point);
            rack.powers(1).iter().map(value)
        });
        // Never zero: the rack's point is none of the unknowns'.
        let factors: Vec<M::Symbol> = values
            .map(|value| {
                let inverse = self.multiply.inverse(value);
                self.multiply.product(M::Symbol::MINUS_ONE, inverse)
            })
            .collect();
        let of_group = |(group, &zeroth): (usize, &M::Symbol)| {
            let at = self.patterns[group] * base + self.checks.digit(rack, group);
            self.multiply.product(factors[at], zeroth)
        };
        self.zeroth.iter().enumerate().map(of_group).collect()
    }
}

/// The polynomial with top coefficient 1 that is zero at these points, the lowest coefficient first.
fn zero_at<M: Multiply>(multiply: &M, points: impl Iterator<Item = M::Symbol>) -> Vec<M::Symbol> {
    let one = multiply.root_power(0);
    points.fold(vec![one], |polynomial, point| {
        let mut next = vec![M::Symbol::default()];
        next.extend(&polynomial);
        for (coefficient, &lower) in next.iter_mut().zip(&polynomial) {
            multiply.take(coefficient, point, lower);
        }
        next
    })
}

/// A polynomial's value at a point.
fn value<M: Multiply>(multiply: &M, polynomial: &[M::Symbol], point: M::Symbol) -> M::Symbol {
    let minus_one = M::Symbol::MINUS_ONE;
    polynomial
        .iter()
        .rev()
        .fold(M::Symbol::default(), |value, &coefficient| {
            let mut sum = multiply.product(value, point);
            let minus = multiply.product(minus_one, coefficient);
            multiply.take(&mut sum, multiply.root_power(0), minus);
            sum
        })
}
