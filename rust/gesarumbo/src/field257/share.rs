//! A helper rack's shares in a repair in this field: from the whole rack, or built up tray by tray.

use crate::ffi::field257;
use crate::{Layout, Rack, Refusal, Tray};

/// Works out what a helper rack sends for the repair of a tray of the host rack, as
/// [`share`](crate::share()) does: symbol p is the sum modulo 257.
///
/// Refused, in this order: as there, and [`Refusal::Number`] also where a number of `rack` is above
/// 256.
///
/// ```
/// use gesarumbo::field257::share;
/// use gesarumbo::{Layout, Rack, Refusal};
///
/// let layout = Layout::new(2, 2, 2, 1);
/// let mut sent = [9999];
/// share(layout, Rack::new(0), Rack::new(1), &[200, 100], &mut sent)?;
/// assert_eq!(sent, [43]);
/// # Ok::<(), Refusal>(())
/// ```
pub fn share(
    layout: Layout,
    host: Rack,
    helper: Rack,
    rack: &[u16],
    share: &mut [u16],
) -> Result<(), Refusal> {
    Refusal::unless_done(field257::share(layout, host, helper, rack, share), ())
}

/// Adds one tray's part to the share of its rack for the repair of a tray of the host rack, as
/// [`share_add`](crate::share_add) does. A tray fed twice counts twice.
///
/// Refused, in this order: as there, and [`Refusal::Number`] also where a number of `symbols` or of
/// `share` is above 256.
///
/// ```
/// use gesarumbo::field257::share_add;
/// use gesarumbo::{Layout, Rack, Refusal, Tray};
///
/// let (layout, host) = (Layout::new(2, 2, 2, 1), Rack::new(0));
/// let mut built = [0];
/// share_add(layout, host, Tray::new(3), &[100], &mut built)?;
/// share_add(layout, host, Tray::new(2), &[200], &mut built)?;
/// assert_eq!(built, [43]);
/// share_add(layout, host, Tray::new(2), &[200], &mut built)?;
/// assert_eq!(built, [243]);
/// # Ok::<(), Refusal>(())
/// ```
pub fn share_add(
    layout: Layout,
    host: Rack,
    tray: Tray,
    symbols: &[u16],
    share: &mut [u16],
) -> Result<(), Refusal> {
    Refusal::unless_done(field257::share_add(layout, host, tray, symbols, share), ())
}

/// Works out what a helper rack sends for the repair of `count` lost trays of the host rack, as
/// [`share_many`](crate::share_many) does, with the root 3 to the power g·m·(256/u).
///
/// Refused, in this order: as there, and [`Refusal::Number`] also where a number of `rack` is above
/// 256 and the count is not 0.
///
/// ```
/// use gesarumbo::field257::share_many;
/// use gesarumbo::{Layout, Rack, Refusal};
///
/// // Here the root to the power 256/u is −1.
/// let mut sent = [0; 2];
/// share_many(Layout::new(2, 2, 2, 1), 2, Rack::new(0), Rack::new(1), &[200, 100], &mut sent)?;
/// assert_eq!(sent, [43, 100]);
/// # Ok::<(), Refusal>(())
/// ```
pub fn share_many(
    layout: Layout,
    count: u32,
    host: Rack,
    helper: Rack,
    rack: &[u16],
    share: &mut [u16],
) -> Result<(), Refusal> {
    let refusal = field257::share_many(layout, count, host, helper, rack, share);
    Refusal::unless_done(refusal, ())
}

/// Adds one tray's part to the shares of its rack for the repair of `count` lost trays of the host
/// rack, as [`share_add_many`](crate::share_add_many) does. A tray fed twice counts twice.
///
/// Refused, in this order: as there, and [`Refusal::Number`] also where a number of `symbols` or of
/// `share` is above 256 and the count is not 0.
///
/// ```
/// use gesarumbo::field257::share_add_many;
/// use gesarumbo::{Layout, Rack, Refusal, Tray};
///
/// let (layout, host) = (Layout::new(2, 2, 2, 1), Rack::new(0));
/// let mut built = [0; 2];
/// for (tray, symbols) in [(3, [100]), (2, [200])] {
///     share_add_many(layout, 2, host, Tray::new(tray), &symbols, &mut built)?;
/// }
/// assert_eq!(built, [43, 100]);
/// # Ok::<(), Refusal>(())
/// ```
pub fn share_add_many(
    layout: Layout,
    count: u32,
    host: Rack,
    tray: Tray,
    symbols: &[u16],
    share: &mut [u16],
) -> Result<(), Refusal> {
    let refusal = field257::share_add_many(layout, count, host, tray, symbols, share);
    Refusal::unless_done(refusal, ())
}
