//! Calls for many codewords of this field, interleaved.

use crate::ffi::field257;
use crate::repair::answered;
use crate::{Layout, Rack, Refusal, Repaired, Tray};

/// Stores the data of `many` codewords, as [`store_batch`](crate::store_batch) does.
///
/// Refused, in this order: as there, and [`Refusal::Number`] where a number of `data` is above 256.
/// What `codewords` holds is not looked at.
///
/// ```
/// use gesarumbo::field257::store_batch;
/// use gesarumbo::{Layout, Refusal};
///
/// // Two codewords, of the data 5, 7 and of the data 0, 1.
/// let layout = Layout::new(2, 2, 2, 1);
/// let mut codewords = [9999; 8];
/// store_batch(layout, 2, &[5, 0, 7, 1], &mut codewords)?;
/// assert_eq!(codewords, [5, 0, 7, 1, 80, 171, 165, 85]);
/// assert_eq!(store_batch(layout, 2, &[5, 0, 7, 257], &mut codewords), Err(Refusal::Number));
/// # Ok::<(), Refusal>(())
/// ```
pub fn store_batch(
    layout: Layout,
    many: usize,
    data: &[u16],
    codewords: &mut [u16],
) -> Result<(), Refusal> {
    Refusal::unless_done(field257::store_batch(layout, many, data, codewords), ())
}

/// Works out what a helper rack sends for the repair of a tray of the host rack in `many` codewords,
/// as [`share_batch`](crate::share_batch) does: sums are modulo 257.
///
/// Refused, in this order: as there, and [`Refusal::Number`] also where a number of `rack` is above
/// 256.
///
/// ```
/// use gesarumbo::field257::share_batch;
/// use gesarumbo::{Layout, Rack, Refusal};
///
/// let mut sent = [9999; 2];
/// let rack = [200, 1, 100, 2];
/// share_batch(Layout::new(2, 2, 2, 1), 2, Rack::new(0), Rack::new(1), &rack, &mut sent)?;
/// assert_eq!(sent, [43, 3]);
/// # Ok::<(), Refusal>(())
/// ```
pub fn share_batch(
    layout: Layout,
    many: usize,
    host: Rack,
    helper: Rack,
    rack: &[u16],
    share: &mut [u16],
) -> Result<(), Refusal> {
    let refusal = field257::share_batch(layout, many, host, helper, rack, share);
    Refusal::unless_done(refusal, ())
}

/// Repairs a lost tray of `many` codewords, or a piece of it, as
/// [`repair_batch`](crate::repair_batch) does.
///
/// Refused, in this order: as there, and [`Refusal::Number`] also where a share symbol of a group
/// that the piece does is above 256, or a symbol of a sound tray of `host` in a layer of such a
/// group, whatever else is wrong with the helpers. A piece of no group looks at no symbol.
///
/// ```
/// use gesarumbo::field257::repair_batch;
/// use gesarumbo::{Layout, Rack, Refusal, Repaired, Tray};
///
/// // Of 5, 7, 80, 165 and of twice that, tray 1 is lost; rack 1 sends 80 + 165 and 160 + 73.
/// let (layout, lost, helpers) = (Layout::new(2, 2, 2, 1), Tray::new(1), [Rack::new(1)]);
/// let (host, mut spare) = ([5, 10, 9999, 9999], [0; 2]);
/// let done = repair_batch(layout, 2, lost, &helpers, &[245, 233], &host, &mut spare, 0, 1);
/// assert_eq!(done, Ok(Repaired { groups: 1, crossed: 2, remaining: 0 }));
/// assert_eq!(spare, [7, 14]);
/// let refused = repair_batch(layout, 2, lost, &helpers, &[245, 257], &host, &mut spare, 0, 1);
/// assert_eq!(refused, Err(Refusal::Number));
/// ```
#[allow(clippy::too_many_arguments)] // a repair has as many
pub fn repair_batch(
    layout: Layout,
    many: usize,
    lost: Tray,
    helpers: &[Rack],
    shares: &[u16],
    host: &[u16],
    spare: &mut [u16],
    first: u64,
    budget: u64,
) -> Result<Repaired, Refusal> {
    answered(field257::repair_batch(
        layout, many, lost, helpers, shares, host, spare, first, budget,
    ))
}
