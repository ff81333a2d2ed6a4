//! Shares, and the repair of a tray from them.

use super::checks::{Checks, Item};
use super::field::{Field, Multiply};
use gesarumbo::Numbers;

/// Groups that follow one another and whose layers with one digit of the host do too.
struct Run {
    group: usize,
    layer: usize,
    digit: usize,
    length: usize,
}

/// All layers, in such runs.
fn runs(numbers: &Numbers, host: usize) -> impl Iterator<Item = Run> {
    let Numbers { digits, groups, .. } = *numbers;
    let length = digits.pow(host as u32);
    let run = move |group, digit| Run {
        group,
        layer: group * digits + digit * length,
        digit,
        length,
    };
    let firsts = (0..groups).step_by(length);
    firsts.flat_map(move |group| (0..digits).map(move |digit| run(group, digit)))
}

/// Works out the share of a helper rack. It multiplies nothing.
pub fn share<S: Field>(numbers: &Numbers, host: usize, rack: &[S], share: &mut [S]) {
    share.fill(S::default());
    for tray in rack.chunks(numbers.layers) {
        for run in runs(numbers, host) {
            let symbols = &tray[run.layer..][..run.length];
            let sums = &mut share[run.group..][..run.length];
            for (sum, &symbol) in sums.iter_mut().zip(symbols) {
                *sum = sum.plus(symbol);
            }
        }
    }
    S::reduce(share);
}

/// Repairs a whole tray.
pub fn repair<M: Multiply>(
    multiply: &M,
    numbers: &Numbers,
    lost: usize,
    helpers: &[usize],
    shares: &[M::Symbol],
    host_rack: &[M::Symbol],
    spare: &mut [M::Symbol],
) {
    let summed = Summed::new(multiply, numbers, lost / numbers.size);
    let sums = summed.sums(helpers, shares);
    let host_sums = summed.host_sums(helpers, &sums);
    write(numbers, lost, &host_sums, host_rack, spare);
}

/// Writes the lost tray: the host rack's sums, digit after digit, less its other trays.
pub fn write<S: Field>(
    numbers: &Numbers,
    lost: usize,
    host_sums: &[S],
    host_rack: &[S],
    spare: &mut [S],
) {
    let groups = numbers.groups;
    for run in runs(numbers, lost / numbers.size) {
        let sums = &host_sums[run.digit * groups + run.group..][..run.length];
        spare[run.layer..][..run.length].copy_from_slice(sums);
    }
    for (place, tray) in host_rack.chunks(numbers.layers).enumerate() {
        if place != lost % numbers.size {
            for (rest, &symbol) in spare.iter_mut().zip(tray) {
                *rest = rest.minus(symbol);
            }
        }
    }
    S::reduce(spare);
}

/// The checks summed over each group of a host rack.
pub struct Summed<'a, M> {
    numbers: &'a Numbers,
    host: usize,
    pub checks: Checks<'a, M>,
}

impl<'a, M: Multiply> Summed<'a, M> {
    pub fn new(multiply: &'a M, numbers: &'a Numbers, host: usize) -> Summed<'a, M> {
        let (count, rows) = (numbers.parity_racks, numbers.racks - 1);
        Summed {
            numbers,
            host,
            checks: Checks::new(multiply, numbers.digits, count, rows),
        }
    }

    /// A rack that is not the host.
    pub fn rack(&self, i: usize) -> Item<M::Symbol> {
        let Numbers { digits, size, .. } = *self.numbers;
        let row = if i < self.host { i } else { i - 1 };
        self.checks.item(row, |digit| (i * digits + digit) * size)
    }

    /// The helpers' part of every check in every group.
    pub fn sums(&self, helpers: &[usize], shares: &[M::Symbol]) -> Vec<M::Symbol> {
        let Numbers {
            parity_racks,
            groups,
            ..
        } = *self.numbers;
        let mut sums = vec![M::Symbol::default(); parity_racks * groups];
        for (&helper, share) in helpers.iter().zip(shares.chunks(groups)) {
            let rack = self.rack(helper);
            self.checks.add(&rack, share, 0..parity_racks, &mut sums);
        }
        M::Symbol::reduce(&mut sums);
        sums
    }

    /// What is unknown in every group: the host's sums, digit after digit, and those of the racks
    /// that do not help.
    pub fn unknown(&self, helpers: &[usize]) -> Vec<Item<M::Symbol>> {
        let Numbers {
            racks,
            size,
            digits,
            ..
        } = *self.numbers;
        let own = |digit| {
            let exponent = (self.host * digits + digit) * size;
            self.checks.item(0, move |_| exponent)
        };
        let silent = (0..racks).filter(|i| *i != self.host && !helpers.contains(i));
        let silent = silent.map(|i| self.rack(i));
        (0..digits).map(own).chain(silent).collect()
    }

    /// The host rack's sums in every group, digit after digit.
    pub fn host_sums(&self, helpers: &[usize], sums: &[M::Symbol]) -> Vec<M::Symbol> {
        let unknown = self.unknown(helpers);
        let unknown = Vec::from_iter(&unknown);
        self.checks.solve(&unknown, self.numbers.digits, sums)
    }
}
