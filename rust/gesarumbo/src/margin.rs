//! The loss margin.

use crate::ffi::{self, field256};
use crate::{Layout, Refusal};

/// How many more trays may be lost: the number of live trays, less k.
///
/// `states` has one byte a tray. A margin below zero is an answer and no refusal; it runs from −k
/// to n − k. Nothing is written.
///
/// Refused, in this order: [`Refusal::Layout`]; [`Refusal::Length`] where there are not n states;
/// [`Refusal::Number`] where one is none of [`ABSENT`](crate::ABSENT), [`LIVE`](crate::LIVE) and
/// [`DEMONSTRATION`](crate::DEMONSTRATION).
///
/// ```
/// use gesarumbo::{margin, Layout, ABSENT, LIVE};
///
/// let layout = Layout::new(4, 3, 8, 3);
/// assert_eq!(margin(layout, &[LIVE; 12]), Ok(4));
/// let mut states = [LIVE; 12];
/// states[7..].fill(ABSENT);
/// assert_eq!(margin(layout, &states), Ok(-1));
/// ```
pub fn margin(layout: Layout, states: &[u8]) -> Result<i32, Refusal> {
    answered(field256::margin(layout, states))
}

/// What the library's answer means.
pub(crate) fn answered(answer: ffi::Margin) -> Result<i32, Refusal> {
    let ffi::Margin { refusal, margin } = answer;
    Refusal::unless_done(refusal, margin)
}
