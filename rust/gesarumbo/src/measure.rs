//! The numbers that follow from a layout.

use crate::ffi::{self, field256};
use crate::{Layout, Refusal};

/// What follows from an admissible layout.
#[derive(Clone, Copy, Debug, PartialEq, Eq)]
pub struct Measured {
    /// L, the layers: as many symbols as a tray has.
    pub layers: u32,
    /// r, the checks of a layer: as many trays as may be erased.
    pub checks: u32,
    /// d·L/s, the symbols that cross in the repair of one tray.
    pub traffic: u32,
}

/// Gives the layers, the checks and the traffic of a layout.
///
/// Refused: [`Refusal::Layout`] where the layout is not admissible.
///
/// ```
/// use gesarumbo::{measure, Layout, Measured, Refusal};
///
/// assert_eq!(measure(Layout::new(4, 3, 8, 3)), Ok(Measured { layers: 16, checks: 4, traffic: 24 }));
/// assert_eq!(measure(Layout::new(10, 3, 24, 9))?.layers, 1024);
/// assert_eq!(measure(Layout::new(4, 4, 8, 3)), Err(Refusal::Layout));
/// # Ok::<(), Refusal>(())
/// ```
pub fn measure(layout: Layout) -> Result<Measured, Refusal> {
    answered(field256::measure(layout))
}

/// What the library's answer means.
pub(crate) fn answered(answer: ffi::Measured) -> Result<Measured, Refusal> {
    let ffi::Measured {
        refusal,
        layers,
        checks,
        traffic,
    } = answer;
    Refusal::unless_done(
        refusal,
        Measured {
            layers,
            checks,
            traffic,
        },
    )
}
