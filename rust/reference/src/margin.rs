//! The loss margin.

use crate::field::Field;
use crate::layout::Layout;
use crate::refusal::{refuse, Refusal};
use crate::{ABSENT, DEMONSTRATION, LIVE};

/// The number of trays that count, less k.
pub fn margin<F: Field>(layout: Layout<F>, states: &[u8]) -> Result<i32, Refusal> {
    let numbers = layout.numbers()?;
    let known = [ABSENT, LIVE, DEMONSTRATION];
    refuse(&[
        (Refusal::Length, states.len() != numbers.trays),
        (
            Refusal::Number,
            states.iter().any(|state| !known.contains(state)),
        ),
    ])?;
    let present = states.iter().filter(|&&state| counts(state)).count();
    Ok(present as i32 - numbers.dimension as i32)
}

/// Whether a tray in this state counts.
fn counts(state: u8) -> bool {
    state == LIVE
}
