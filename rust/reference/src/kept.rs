//! Testing a codeword of which trays are missing.

use crate::checks::Checks;
use crate::field::Field;
use crate::layout::{Layer, Layout, Tray};
use crate::recover::refuse_erased;
use crate::refusal::Refusal;

/// What the test found, and r less the number of erased trays.
#[derive(Clone, Copy, Debug, PartialEq, Eq)]
pub struct Kept {
    /// The first layer in which no symbols of the erased trays meet the checks,
    /// none where all layers have some.
    pub bad: Option<Layer>,
    pub checks: u32,
}

/// Looks at the trays that are not listed, before it answers at all of them.
pub fn test_kept<F: Field>(
    layout: Layout<F>,
    codeword: &[F::Symbol],
    erased: &[Tray],
) -> Result<Kept, Refusal> {
    let numbers = refuse_erased::<F>(layout, codeword, erased)?;
    let checks = Checks::<F>::new(numbers);
    let unknown: Vec<usize> = erased.iter().map(|tray| tray.0 as usize).collect();
    let fits = |layer: &usize| checks.complete(codeword, &unknown, *layer).is_some();
    let bad = (0..numbers.layers).find(|layer| !fits(layer));
    Ok(Kept {
        bad: bad.map(|layer| Layer(layer as u32)),
        checks: (numbers.checks - erased.len()) as u32,
    })
}
