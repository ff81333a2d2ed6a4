//! A helper rack's shares in a repair: from the whole rack, or built up tray by tray.

use crate::ffi::field256;
use crate::{Layout, Rack, Refusal, Tray};

/// Works out what a helper rack sends for the repair of a tray of the host rack.
///
/// `rack` is the u·L bytes of the helper's trays. Done: all L/s bytes of `share` are written,
/// whatever they held. Symbol p is the exclusive or of the helper's symbols over all its trays and
/// over the s layers of group p: for host h, layer j is in group (j mod s^h) + s^h·(j / s^(h+1)).
/// Refused: `share` is as it was.
///
/// Refused, in this order: [`Refusal::Layout`]; [`Refusal::Length`] where `rack` has not u·L bytes
/// or `share` not L/s; [`Refusal::Number`] where a rack is not below B; [`Refusal::Host`] where the
/// two racks are the same.
///
/// ```
/// use gesarumbo::{share, Layout, Rack, Refusal};
///
/// let layout = Layout::new(3, 1, 1, 2);
/// let mut sent = [0; 4];
/// share(layout, Rack::new(0), Rack::new(1), &[0x11, 0x12, 0x11, 0x12, 0x21, 0x22, 0x21, 0x22], &mut sent)?;
/// assert_eq!(sent, [0x03; 4]);
/// share(layout, Rack::new(1), Rack::new(0), &[0x14, 0x14, 0x18, 0x18, 0x24, 0x24, 0x28, 0x28], &mut sent)?;
/// assert_eq!(sent, [0x0C; 4]);
/// assert_eq!(share(layout, Rack::new(1), Rack::new(1), &[0; 8], &mut sent), Err(Refusal::Host));
/// assert_eq!(sent, [0x0C; 4]);
/// # Ok::<(), Refusal>(())
/// ```
pub fn share(
    layout: Layout,
    host: Rack,
    helper: Rack,
    rack: &[u8],
    share: &mut [u8],
) -> Result<(), Refusal> {
    Refusal::unless_done(field256::share(layout, host, helper, rack, share), ())
}

/// Adds one tray's part to the share of its rack for the repair of a tray of the host rack.
///
/// `symbols` is the L bytes of the tray. Done: the L/s bytes of `share` hold what they held, plus
/// this tray's part: symbol p of the part is the exclusive or of the tray's symbols over the s
/// layers of group p (see [`share()`]). Clear the share first and feed each of the rack's u trays
/// once, in any order: it then holds what [`share()`] gives for the rack. A tray fed twice cancels.
/// Refused: `share` is as it was.
///
/// Refused, in this order: [`Refusal::Layout`]; [`Refusal::Length`] where `symbols` has not L bytes
/// or `share` not L/s; [`Refusal::Number`] where the rack is not below B or the tray not below n;
/// [`Refusal::Host`] where the tray stands in the host rack.
///
/// ```
/// use gesarumbo::{share, share_add, Layout, Rack, Refusal, Tray};
///
/// let layout = Layout::new(2, 3, 3, 1);
/// let (mut whole, mut built) = ([0; 1], [0; 1]);
/// share(layout, Rack::new(0), Rack::new(1), &[0x11, 0x12, 0x14], &mut whole)?;
/// for (tray, symbols) in [(5, [0x14]), (3, [0x11]), (4, [0x12])] {
///     share_add(layout, Rack::new(0), Tray::new(tray), &symbols, &mut built)?;
/// }
/// assert_eq!(built, whole);
/// assert_eq!(share_add(layout, Rack::new(0), Tray::new(2), &[9], &mut built), Err(Refusal::Host));
/// assert_eq!(built, whole);
/// # Ok::<(), Refusal>(())
/// ```
pub fn share_add(
    layout: Layout,
    host: Rack,
    tray: Tray,
    symbols: &[u8],
    share: &mut [u8],
) -> Result<(), Refusal> {
    Refusal::unless_done(field256::share_add(layout, host, tray, symbols, share), ())
}

/// Works out what a helper rack sends for the repair of `count` lost trays of the host rack.
///
/// With e for `count`: `rack` is the u·L bytes of the helper's trays, and `share` has e·L/s bytes,
/// for shares m = 0 to e − 1 one after another. Done: all of `share` is written, whatever it held.
/// Share m is what [`share()`] gives of the rack with each symbol of the tray at place g multiplied
/// by the root to the power g·m·(255/u); so with e = 1 the bytes are those of [`share()`]. Refused:
/// `share` is as it was.
///
/// Refused, in this order: [`Refusal::Layout`], also where E is 1; [`Refusal::Length`] where `rack`
/// has not u·L bytes or `share` not e·L/s; [`Refusal::Number`] where a rack is not below B;
/// [`Refusal::LostCount`] where e is not 1 to u − v, with v = k mod u; [`Refusal::Host`] where the
/// two racks are the same.
///
/// ```
/// use gesarumbo::{share_many, Layout, Rack, Refusal};
///
/// let (layout, host, helper) = (Layout::new(2, 3, 3, 1), Rack::new(1), Rack::new(0));
/// let rack = [0x11, 0x12, 0x14];
/// let mut sent = [0; 2];
/// share_many(layout, 2, host, helper, &rack, &mut sent)?;
/// assert_eq!(sent, [0x11 ^ 0x12 ^ 0x14, 0xCB]);
///
/// let mut too_many = [0; 4];
/// let refused = share_many(layout, 4, host, helper, &rack, &mut too_many);
/// assert_eq!(refused, Err(Refusal::LostCount));
/// # Ok::<(), Refusal>(())
/// ```
pub fn share_many(
    layout: Layout,
    count: u32,
    host: Rack,
    helper: Rack,
    rack: &[u8],
    share: &mut [u8],
) -> Result<(), Refusal> {
    Refusal::unless_done(
        field256::share_many(layout, count, host, helper, rack, share),
        (),
    )
}

/// Adds one tray's part to the shares of its rack for the repair of `count` lost trays of the host
/// rack.
///
/// With e for `count`: `symbols` is the L bytes of the tray. Done: the e·L/s bytes of `share` hold
/// what they held, plus this tray's part: in share m, the root to the power g·m·(255/u) times what
/// [`share_add`] adds, g being the tray's place. Clear the shares first and feed each of the rack's
/// u trays once, in any order: they then hold what [`share_many`] gives for the rack. A tray fed
/// twice cancels. Refused: `share` is as it was.
///
/// Refused, in this order: [`Refusal::Layout`], also where E is 1; [`Refusal::Length`] where
/// `symbols` has not L bytes or `share` not e·L/s; [`Refusal::Number`] where the rack is not below
/// B or the tray not below n; [`Refusal::LostCount`] where e is not 1 to u − v, with v = k mod u;
/// [`Refusal::Host`] where the tray stands in the host rack.
///
/// ```
/// use gesarumbo::{share_add_many, share_many, Layout, Rack, Refusal, Tray};
///
/// let (layout, host) = (Layout::new(2, 3, 3, 1), Rack::new(1));
/// let (mut whole, mut built) = ([0; 3], [0; 3]);
/// share_many(layout, 3, host, Rack::new(0), &[0x11, 0x12, 0x14], &mut whole)?;
/// for (tray, symbols) in [(2, [0x14]), (0, [0x11]), (1, [0x12])] {
///     share_add_many(layout, 3, host, Tray::new(tray), &symbols, &mut built)?;
/// }
/// assert_eq!(built, whole);
/// # Ok::<(), Refusal>(())
/// ```
pub fn share_add_many(
    layout: Layout,
    count: u32,
    host: Rack,
    tray: Tray,
    symbols: &[u8],
    share: &mut [u8],
) -> Result<(), Refusal> {
    Refusal::unless_done(
        field256::share_add_many(layout, count, host, tray, symbols, share),
        (),
    )
}
