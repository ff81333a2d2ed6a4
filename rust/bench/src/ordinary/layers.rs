//! Testing, storing and recovering, a tray at a time.

use super::checks::{Checks, Item};
use super::field::{Field, Multiply};
use gesarumbo::{Layer, Numbers, Tested};

/// The checks of a layout's layers, and its trays.
struct Layers<'a, M: Multiply> {
    numbers: &'a Numbers,
    checks: Checks<'a, M>,
    trays: Vec<Item<M::Symbol>>,
}

impl<'a, M: Multiply> Layers<'a, M> {
    fn new(multiply: &'a M, numbers: &'a Numbers) -> Layers<'a, M> {
        let Numbers { size, digits, .. } = *numbers;
        let checks = Checks::new(multiply, digits, numbers.checks, numbers.racks);
        let tray = |x| {
            let (rack, place) = (x / size, x % size);
            let turn = M::Symbol::ORDER / size;
            checks.item(rack, |digit| rack * digits + digit + place * turn)
        };
        Layers {
            trays: (0..numbers.trays).map(tray).collect(),
            checks,
            numbers,
        }
    }

    /// The sums of all checks over some trays of a codeword.
    fn sums(&self, trays: impl Iterator<Item = usize>, codeword: &[M::Symbol]) -> Vec<M::Symbol> {
        let Numbers { checks, layers, .. } = *self.numbers;
        let mut sums = vec![M::Symbol::default(); checks * layers];
        for x in trays {
            let symbols = &codeword[x * layers..][..layers];
            self.checks
                .add(&self.trays[x], symbols, 0..checks, &mut sums);
        }
        M::Symbol::reduce(&mut sums);
        sums
    }

    /// Fills the erased trays; false, and nothing written, if no codeword has the survivors.
    fn fill(&self, codeword: &mut [M::Symbol], erased: &[usize]) -> bool {
        let Numbers { checks, layers, .. } = *self.numbers;
        let known = (0..self.trays.len()).filter(|x| !erased.contains(x));
        let mut sums = self.sums(known, codeword);
        let unknown: Vec<_> = erased.iter().map(|&x| &self.trays[x]).collect();
        let found = self.checks.solve(&unknown, unknown.len(), &sums);
        let left = &mut sums[erased.len() * layers..];
        for (item, symbols) in unknown.iter().zip(found.chunks(layers)) {
            self.checks.add(item, symbols, erased.len()..checks, left);
        }
        M::Symbol::reduce(left);
        if left.iter().any(|&sum| sum != M::Symbol::default()) {
            return false;
        }
        for (&x, symbols) in erased.iter().zip(found.chunks(layers)) {
            codeword[x * layers..][..layers].copy_from_slice(symbols);
        }
        true
    }
}

pub fn test<M: Multiply>(multiply: &M, numbers: &Numbers, codeword: &[M::Symbol]) -> Tested {
    let call = Layers::new(multiply, numbers);
    let Numbers { checks, layers, .. } = *call.numbers;
    let sums = call.sums(0..call.trays.len(), codeword);
    for layer in 0..layers {
        if let Some(t) = (0..checks).find(|t| sums[t * layers + layer] != M::Symbol::default()) {
            return Tested::Bad {
                layer: Layer::new(layer as u32),
                check: t as u32,
            };
        }
    }
    Tested::Sound
}

pub fn walk<M: Multiply>(multiply: &M, numbers: &Numbers, codeword: &[M::Symbol]) -> u32 {
    let call = Layers::new(multiply, numbers);
    let Numbers { checks, layers, .. } = *call.numbers;
    let sums = call.sums(0..call.trays.len(), codeword);
    let bad = |layer: &usize| (0..checks).any(|t| sums[t * layers + layer] != M::Symbol::default());
    (0..layers).filter(bad).count() as u32
}

pub fn store<M: Multiply>(
    multiply: &M,
    numbers: &Numbers,
    data: &[M::Symbol],
    codeword: &mut [M::Symbol],
) {
    let call = Layers::new(multiply, numbers);
    let parity = Vec::from_iter(numbers.dimension..call.trays.len());
    codeword[..data.len()].copy_from_slice(data);
    call.fill(codeword, &parity);
}

pub fn recover<M: Multiply>(
    multiply: &M,
    numbers: &Numbers,
    codeword: &mut [M::Symbol],
    erased: &[usize],
) -> bool {
    Layers::new(multiply, numbers).fill(codeword, erased)
}
