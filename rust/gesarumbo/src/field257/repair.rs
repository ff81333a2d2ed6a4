//! The repair of lost trays of one rack from shares in this field, whole or in pieces.

use crate::ffi::field257;
use crate::repair::answered;
use crate::{Layout, Rack, Refusal, Repaired, Tray};

/// Repairs a lost tray, or a piece of it, from the shares of d helper racks and the sound trays of
/// its own rack, as [`repair`](crate::repair()) does.
///
/// Refused, in this order: as there, and [`Refusal::Number`] also where a share symbol of a group
/// that the piece does is above 256, or a symbol of a sound tray of `host` in a layer of such a
/// group, whatever else is wrong with the helpers. A piece of no group looks at no symbol.
///
/// ```
/// use gesarumbo::field257::repair;
/// use gesarumbo::{Layout, Rack, Refusal, Repaired, Tray};
///
/// // Of [5, 7, 80, 165], tray 1 is lost; rack 1 sends 80 + 165.
/// let (layout, lost, helpers) = (Layout::new(2, 2, 2, 1), Tray::new(1), [Rack::new(1)]);
/// let mut spare = [0];
/// let done = repair(layout, lost, &helpers, &[245], &[5, 9999], &mut spare, 0, 1);
/// assert_eq!(done, Ok(Repaired { groups: 1, crossed: 1, remaining: 0 }));
/// assert_eq!(spare, [7]);
/// let refused = repair(layout, lost, &helpers, &[257], &[5, 7], &mut spare, 0, 1);
/// assert_eq!(refused, Err(Refusal::Number));
/// ```
#[allow(clippy::too_many_arguments)] // a repair has as many
pub fn repair(
    layout: Layout,
    lost: Tray,
    helpers: &[Rack],
    shares: &[u16],
    host: &[u16],
    spare: &mut [u16],
    first: u64,
    budget: u64,
) -> Result<Repaired, Refusal> {
    answered(field257::repair(
        layout, lost, helpers, shares, host, spare, first, budget,
    ))
}

/// Repairs e lost trays of one rack, or a piece of them, from the shares of d helper racks and the
/// rack's sound trays, as [`repair_many`](crate::repair_many) does.
///
/// Refused, in this order: as there, and [`Refusal::Number`] as [`repair`] is, also where e is above
/// u − v. With no lost tray no symbol is looked at.
///
/// ```
/// use gesarumbo::field257::repair_many;
/// use gesarumbo::{Layout, Rack, Refusal, Repaired, Tray};
///
/// // Of [5, 7, 80, 165], trays 2 and 3 are lost; rack 0 sends 5 + 7 and 5 − 7.
/// let (layout, lost, helpers) = (Layout::new(2, 2, 2, 1), [2, 3].map(Tray::new), [Rack::new(0)]);
/// let (shares, host, mut spare) = ([12, 255], [9999; 2], [0; 2]);
/// let done = repair_many(layout, &lost, &helpers, &shares, &host, &mut spare, 0, 1);
/// assert_eq!(done, Ok(Repaired { groups: 1, crossed: 2, remaining: 0 }));
/// assert_eq!(spare, [80, 165]);
/// ```
#[allow(clippy::too_many_arguments)] // a repair has as many
pub fn repair_many(
    layout: Layout,
    lost: &[Tray],
    helpers: &[Rack],
    shares: &[u16],
    host: &[u16],
    spare: &mut [u16],
    first: u64,
    budget: u64,
) -> Result<Repaired, Refusal> {
    answered(field257::repair_many(
        layout, lost, helpers, shares, host, spare, first, budget,
    ))
}
