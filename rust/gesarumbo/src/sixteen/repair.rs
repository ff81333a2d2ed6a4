//! The repair of one lost tray of the box from two other racks.

use super::ffi;
use crate::{Rack, Refusal, Tray};

/// What a repair of the box did.
#[derive(Clone, Copy, Debug, PartialEq, Eq)]
pub struct Repaired {
    /// Symbols crossed: two.
    pub crossed: u32,
}

/// Repairs a lost tray from the shares of two helper racks and the three other trays of its own rack.
///
/// `helpers` rise, and `shares` are theirs in this order, one byte each; `host` is the four values of
/// the lost tray's rack, of which that of the lost tray is not looked at.
///
/// Done: the byte of `spare` is written, whatever it held: the one value with which the top
/// coefficient of the lost tray's rack is that of the helpers. With the shares and values of a word
/// it is the word's. Refused: `spare` is as it was.
///
/// Refused, in this order: [`Refusal::Length`] where `shares` has not 2 bytes, `host` not 4 or
/// `spare` not one; [`Refusal::Number`] where the tray is not below 16, a helper not below 4, or a
/// share or one of the three other values above 15; [`Refusal::Order`] where the helpers do not rise;
/// [`Refusal::Count`] where they are not two; [`Refusal::Host`] where the lost tray's rack is one of
/// them; [`Refusal::Survivors`] where the shares differ.
///
/// ```
/// use gesarumbo::{sixteen, Rack, Refusal, Tray};
///
/// let mut values = [0; 16];
/// sixteen::store(&[1, 2, 3, 4, 5, 6, 7], &mut values)?;
/// let helpers = [1, 2].map(Rack::new);
/// let host = [values[0], 0xFF, values[2], values[3]]; // tray 1 is lost
/// let mut spare = [0xEE];
/// let done = sixteen::repair(Tray::new(1), &helpers, &[3, 3], &host, &mut spare)?;
/// assert_eq!((spare[0], done.crossed), (values[1], 2));
///
/// let refused = sixteen::repair(Tray::new(1), &helpers, &[3, 4], &host, &mut spare);
/// assert_eq!(refused, Err(Refusal::Survivors));
/// # Ok::<(), Refusal>(())
/// ```
pub fn repair(
    lost: Tray,
    helpers: &[Rack],
    shares: &[u8],
    host: &[u8],
    spare: &mut [u8],
) -> Result<Repaired, Refusal> {
    let ffi::Repaired { refusal, crossed } = ffi::repair(lost, helpers, shares, host, spare);
    Refusal::unless_done(refusal, Repaired { crossed })
}
