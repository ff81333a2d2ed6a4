//! Repair cards of this field: the ready multipliers of one group of a repair.

use crate::ffi::field257;
use crate::repair::answered;
use crate::{Layout, Rack, Refusal, Repaired, Tray};

/// Prints the right card for a lost tray, d helper racks and a group, as [`card`](crate::card())
/// does: d·s multipliers, numbers 0 to 256.
///
/// Refused, in this order: as there.
///
/// ```
/// use gesarumbo::field257::card;
/// use gesarumbo::{Layout, Rack, Tray};
///
/// // The two racks' sums cancel: the multiplier is −1.
/// let mut only = [0];
/// card(Layout::new(2, 2, 2, 1), Tray::new(1), &[Rack::new(1)], 0, &mut only)?;
/// assert_eq!(only, [256]);
/// # Ok::<(), gesarumbo::Refusal>(())
/// ```
pub fn card(
    layout: Layout,
    lost: Tray,
    helpers: &[Rack],
    group: u64,
    card: &mut [u16],
) -> Result<(), Refusal> {
    Refusal::unless_done(field257::card(layout, lost, helpers, group, card), ())
}

/// Tests a card for a lost tray, d helper racks and a group, as [`card_test`](crate::card_test)
/// does.
///
/// Refused, in this order: as there, and [`Refusal::Number`] also where a multiplier is above 256.
///
/// ```
/// use gesarumbo::field257::card_test;
/// use gesarumbo::{Layout, Rack, Refusal, Tray};
///
/// let (layout, helpers) = (Layout::new(2, 2, 2, 1), [Rack::new(1)]);
/// let tested = |card: u16| card_test(layout, Tray::new(1), &helpers, &[card], 0);
/// assert_eq!(tested(256), Ok(()));
/// assert_eq!(tested(1), Err(Refusal::Card));
/// assert_eq!(tested(257), Err(Refusal::Number));
/// ```
pub fn card_test(
    layout: Layout,
    lost: Tray,
    helpers: &[Rack],
    card: &[u16],
    group: u64,
) -> Result<(), Refusal> {
    Refusal::unless_done(field257::card_test(layout, lost, helpers, card, group), ())
}

/// Repairs one group of a lost tray by a card, which is tested too, as
/// [`card_repair`](crate::card_repair) does.
///
/// Refused, in this order: as there, and [`Refusal::Number`] also where a multiplier is above 256,
/// a share symbol of the group, or a symbol of a sound tray of `host` in a layer of the group,
/// whatever else is wrong with the helpers.
///
/// ```
/// use gesarumbo::field257::card_repair;
/// use gesarumbo::{Layout, Rack, Repaired, Tray};
///
/// // Of [5, 7, 80, 165], tray 1 is lost; rack 1 sends 80 + 165.
/// let (layout, lost, helpers) = (Layout::new(2, 2, 2, 1), Tray::new(1), [Rack::new(1)]);
/// let mut spare = [0];
/// let done = card_repair(layout, lost, &helpers, &[256], &[245], &[5, 9999], &mut spare, 0);
/// assert_eq!(done, Ok(Repaired { groups: 1, crossed: 1, remaining: 0 }));
/// assert_eq!(spare, [7]);
/// ```
#[allow(clippy::too_many_arguments)] // a repair has as many
pub fn card_repair(
    layout: Layout,
    lost: Tray,
    helpers: &[Rack],
    card: &[u16],
    shares: &[u16],
    host: &[u16],
    spare: &mut [u16],
    group: u64,
) -> Result<Repaired, Refusal> {
    answered(field257::card_repair(
        layout, lost, helpers, card, shares, host, spare, group,
    ))
}
