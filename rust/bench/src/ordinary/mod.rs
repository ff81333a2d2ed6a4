//! The same calls in ordinary Rust, as an engineer would write them in an hour: no proofs, and
//! only inputs that are right.
//!
//! Powers of points are worked out once for a call and inverses once for each pattern of digits;
//! what is left to do for a symbol is one product for each check: by a table in the field of 256,
//! of plain numbers in that of 257.

pub mod bytes;
mod checks;
mod correcting;
mod field;
mod groups;
mod layers;
pub mod prime;
mod system;

use crate::version::Version;
pub use field::Multiply;
use gesarumbo::{Numbers, Rack, Tested, Tray};

/// Ordinary Rust over one way to multiply.
pub struct Ordinary<M> {
    pub name: &'static str,
    pub multiply: M,
}

impl<M: Multiply> Version<M::Symbol> for Ordinary<M> {
    fn name(&self) -> &'static str {
        self.name
    }

    fn store(&self, numbers: &Numbers, data: &[M::Symbol], codeword: &mut [M::Symbol]) {
        layers::store(&self.multiply, numbers, data, codeword);
    }

    fn test(&self, numbers: &Numbers, codeword: &[M::Symbol]) -> Tested {
        layers::test(&self.multiply, numbers, codeword)
    }

    fn walk(&self, numbers: &Numbers, codeword: &[M::Symbol]) -> u32 {
        layers::walk(&self.multiply, numbers, codeword)
    }

    fn recover(&self, numbers: &Numbers, codeword: &mut [M::Symbol], erased: &[Tray]) -> bool {
        let erased: Vec<usize> = erased.iter().map(|tray| tray.number() as usize).collect();
        layers::recover(&self.multiply, numbers, codeword, &erased)
    }

    fn share(
        &self,
        numbers: &Numbers,
        host: Rack,
        _helper: Rack,
        rack: &[M::Symbol],
        share: &mut [M::Symbol],
    ) {
        groups::share(numbers, host.number() as usize, rack, share);
    }

    fn repair(
        &self,
        numbers: &Numbers,
        lost: Tray,
        helpers: &[Rack],
        shares: &[M::Symbol],
        host: &[M::Symbol],
        spare: &mut [M::Symbol],
    ) {
        let lost = lost.number() as usize;
        let helpers: Vec<usize> = helpers.iter().map(|rack| rack.number() as usize).collect();
        groups::repair(&self.multiply, numbers, lost, &helpers, shares, host, spare);
    }

    fn correct(
        &self,
        numbers: &Numbers,
        lost: Tray,
        helpers: &[Rack],
        shares: &[M::Symbol],
        host: &[M::Symbol],
        spare: &mut [M::Symbol],
    ) -> Option<Rack> {
        let lost = lost.number() as usize;
        let helpers: Vec<usize> = helpers.iter().map(|rack| rack.number() as usize).collect();
        correcting::correct(&self.multiply, numbers, lost, &helpers, shares, host, spare)
            .map(|rack| Rack::new(rack as u32))
    }
}
