//! All numbers of a layout, by which buffers are measured out.

use crate::ffi::{self, field256};
use crate::measure::answered;
use crate::{Layout, Refusal};

/// The numbers of an admissible layout; there are none of any other.
///
/// A tray has `layers` symbols, a share `groups`, and the shares of all helpers `traffic`. These and
/// `checks` are the library's answer; the others are what the letters stand for.
#[non_exhaustive]
#[derive(Clone, Copy, Debug, PartialEq, Eq, Hash)]
pub struct Numbers {
    /// The layout itself, to hand on to the calls.
    pub layout: Layout,
    /// B, the racks.
    pub racks: usize,
    /// u, the trays of a rack.
    pub size: usize,
    /// k, the trays' worth of data.
    pub dimension: usize,
    /// d, the helper racks of a repair.
    pub helpers: usize,
    /// E, how many helpers may send a wrong share.
    pub errors: usize,
    /// n = B·u, the trays in all.
    pub trays: usize,
    /// r = n − k, the checks of a layer: as many trays as may be erased.
    pub checks: usize,
    /// K = k/u (whole), the whole racks in k.
    pub whole: usize,
    /// v = k mod u, the trays of k beyond them.
    pub part: usize,
    /// R = B − K, the checks of a layer that speak of rack sums alone.
    pub parity_racks: usize,
    /// s = d − K + 1 − 2·E, the values of a digit of a layer: as many layers as a group has.
    pub digits: usize,
    /// L = s^B, the layers: as many symbols as a tray has.
    pub layers: usize,
    /// L/s, the groups of a repair: as many symbols as a share has.
    pub groups: usize,
    /// d·L/s, the symbols that cross in the repair of one tray.
    pub traffic: usize,
}

/// Gives all numbers of a layout.
///
/// Refused: [`Refusal::Layout`] where the layout is not admissible.
///
/// ```
/// use gesarumbo::{numbers, Layout, Refusal};
///
/// let flagship = numbers(Layout::new(10, 3, 24, 9))?;
/// assert_eq!((flagship.trays, flagship.checks, flagship.digits), (30, 6, 2));
/// assert_eq!((flagship.layers, flagship.groups, flagship.traffic), (1024, 512, 4608));
/// assert_eq!((flagship.whole, flagship.part, flagship.parity_racks), (8, 0, 2));
/// assert_eq!((flagship.data(), flagship.rack(), flagship.codeword()), (24576, 3072, 30720));
/// assert_eq!(flagship.lost_at_once(), 3);
///
/// assert_eq!(numbers(Layout::new(10, 4, 32, 9)), Err(Refusal::Layout));
/// # Ok::<(), Refusal>(())
/// ```
pub fn numbers(layout: Layout) -> Result<Numbers, Refusal> {
    Numbers::of(layout, field256::measure(layout))
}

impl Numbers {
    /// The numbers of a layout that the library has measured.
    pub(crate) fn of(layout: Layout, answer: ffi::Measured) -> Result<Numbers, Refusal> {
        let measured = answered(answer)?;
        let (racks, size) = (layout.racks as usize, layout.size as usize);
        let (dimension, helpers) = (layout.dimension as usize, layout.helpers as usize);
        let errors = layout.errors as usize;
        let (whole, layers) = (dimension / size, measured.layers as usize);
        let digits = helpers + 1 - whole - 2 * errors;
        Ok(Numbers {
            layout,
            racks,
            size,
            dimension,
            helpers,
            errors,
            trays: racks * size,
            checks: measured.checks as usize,
            whole,
            part: dimension % size,
            parity_racks: racks - whole,
            digits,
            layers,
            groups: layers / digits,
            traffic: measured.traffic as usize,
        })
    }

    /// k·L, the symbols of the data.
    pub const fn data(&self) -> usize {
        self.dimension * self.layers
    }

    /// u·L, the symbols of a rack.
    pub const fn rack(&self) -> usize {
        self.size * self.layers
    }

    /// n·L, the symbols of a codeword.
    pub const fn codeword(&self) -> usize {
        self.trays * self.layers
    }

    /// The lost trays of one rack that are repaired together at most: u − v, or one where E is 1.
    pub const fn lost_at_once(&self) -> usize {
        match self.errors {
            0 => self.size - self.part,
            _ => 1,
        }
    }
}
