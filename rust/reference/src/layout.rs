//! Layouts, their numbers, and the digits and groups of layers.

use crate::field::Field;
use crate::Refusal;
use std::marker::PhantomData;

/// The most trays in a cabinet.
pub const MOST_TRAYS: u64 = 60;
/// The most layers in a tray.
pub const MOST_LAYERS: u64 = 4096;

#[derive(Clone, Copy, Debug, PartialEq, Eq, PartialOrd, Ord)]
pub struct Rack(pub u32);
#[derive(Clone, Copy, Debug, PartialEq, Eq, PartialOrd, Ord)]
pub struct Tray(pub u32);
#[derive(Clone, Copy, Debug, PartialEq, Eq, PartialOrd, Ord)]
pub struct Layer(pub u32);

/// Document 01's B, u, k, d and W12's E, any values, of a cabinet of a field.
#[derive(Clone, Copy, Debug, PartialEq, Eq)]
pub struct Layout<F> {
    pub racks: u32,
    pub size: u32,
    pub dimension: u32,
    pub helpers: u32,
    pub errors: u32,
    field: PhantomData<F>,
}

/// What follows from an admissible layout.
#[derive(Clone, Copy, Debug, PartialEq, Eq)]
pub struct Numbers {
    /// B
    pub racks: usize,
    /// u
    pub size: usize,
    /// k
    pub dimension: usize,
    /// d
    pub helpers: usize,
    /// n
    pub trays: usize,
    /// r
    pub checks: usize,
    /// R
    pub rack_checks: usize,
    /// s
    pub base: usize,
    /// L
    pub layers: usize,
    /// L/s
    pub groups: usize,
}

/// The answer of the layout call.
#[derive(Clone, Copy, Debug, PartialEq, Eq)]
pub struct Measured {
    pub layers: u32,
    pub checks: u32,
    pub traffic: u32,
}

impl<F> From<[u32; 5]> for Layout<F> {
    fn from([racks, size, dimension, helpers, errors]: [u32; 5]) -> Layout<F> {
        Layout {
            racks,
            size,
            dimension,
            helpers,
            errors,
            field: PhantomData,
        }
    }
}

/// Document 01's layouts, which have E = 0.
impl<F> From<[u32; 4]> for Layout<F> {
    fn from([racks, size, dimension, helpers]: [u32; 4]) -> Layout<F> {
        Layout::from([racks, size, dimension, helpers, 0])
    }
}

impl<F: Field> Layout<F> {
    /// The layout's numbers, refused where it is not admissible.
    pub fn numbers(self) -> Result<Numbers, Refusal> {
        self.admitted().ok_or(Refusal::Layout)
    }

    /// The same for a call that is for layouts with this E only.
    pub fn numbers_with(self, errors: u32) -> Result<Numbers, Refusal> {
        let admitted = self.admitted().filter(|_| self.errors == errors);
        admitted.ok_or(Refusal::Layout)
    }

    /// Document 01's conditions, W10's and W12's. Products and powers are taken
    /// in a width in which they cannot wrap, each only where the conditions
    /// before it hold. That n·s is at most the order never decides.
    fn admitted(self) -> Option<Numbers> {
        let [racks, size, dimension, helpers, errors] = [
            self.racks,
            self.size,
            self.dimension,
            self.helpers,
            self.errors,
        ]
        .map(u64::from);
        let must = |condition: bool| condition.then_some(());
        must(racks >= 2 && F::RACK_SIZES.contains(&self.size))?;
        let trays = racks * size;
        must(trays <= MOST_TRAYS && size <= dimension && size + dimension <= trays)?;
        let whole = dimension / size;
        // With E = 0, K ≤ d and s = d − K + 1; with E = 1, K + 2 ≤ d and
        // s = d − 2 − K + 1.
        must(errors <= 1 && whole + 2 * errors <= helpers && helpers < racks)?;
        let base = helpers - 2 * errors - whole + 1;
        let layers = base
            .checked_pow(self.racks)
            .filter(|&layers| layers <= MOST_LAYERS)?;
        must(trays * base <= F::ORDER as u64)?;
        Some(Numbers {
            racks: racks as usize,
            size: size as usize,
            dimension: dimension as usize,
            helpers: helpers as usize,
            trays: trays as usize,
            checks: (trays - dimension) as usize,
            rack_checks: (racks - whole) as usize,
            base: base as usize,
            layers: layers as usize,
            groups: (layers / base) as usize,
        })
    }
}

impl Numbers {
    pub fn has_rack(&self, rack: Rack) -> bool {
        (rack.0 as usize) < self.racks
    }

    pub fn has_tray(&self, tray: Tray) -> bool {
        (tray.0 as usize) < self.trays
    }

    /// The most lost trays that one repair can do: u − v.
    pub fn most_lost(&self) -> usize {
        self.size - self.dimension % self.size
    }

    /// Whether one repair can do so many lost trays.
    pub fn can_lose(&self, count: usize) -> bool {
        (1..=self.most_lost()).contains(&count)
    }

    /// Digit `rack` of a layer in base s, digit 0 the lowest.
    pub fn digit(&self, layer: usize, rack: usize) -> usize {
        layer / self.base.pow(rack as u32) % self.base
    }

    /// The group of a layer for a host rack: its digits but the host's.
    pub fn group(&self, host: usize, layer: usize) -> usize {
        let below = self.base.pow(host as u32);
        layer % below + below * (layer / (below * self.base))
    }

    /// The layers of each group for a host rack, in order of the host's digit.
    pub fn layers_of_groups(&self, host: usize) -> Vec<Vec<usize>> {
        let mut layers_of = vec![vec![]; self.groups];
        for layer in 0..self.layers {
            layers_of[self.group(host, layer)].push(layer);
        }
        layers_of
    }
}

/// The layout call: L, r and the traffic d·L/s.
pub fn measure<F: Field>(layout: Layout<F>) -> Result<Measured, Refusal> {
    let numbers = layout.numbers()?;
    Ok(Measured {
        layers: numbers.layers as u32,
        checks: numbers.checks as u32,
        traffic: (numbers.helpers * numbers.groups) as u32,
    })
}
