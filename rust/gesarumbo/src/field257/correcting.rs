//! The repair of a lost tray in this field from shares of which one may be wrong.

use crate::correcting::answered;
use crate::ffi::field257;
use crate::{Corrected, Layout, Rack, Refusal, Tray};

/// Repairs a lost tray, all groups at once, from the shares of d helper racks, of which one may be
/// wrong, and the sound trays of its own rack, as [`repair_correcting`](crate::repair_correcting)
/// does. A wrong share is one of symbols still.
///
/// Refused, in this order: as there, and [`Refusal::Number`] also where a number of `shares` is
/// above 256, or one of a sound tray of `host`, whatever else is wrong with the helpers.
///
/// ```
/// use gesarumbo::field257::{repair_correcting, store};
/// use gesarumbo::{Corrected, Layout, Rack, Refusal, Tray};
///
/// // Four racks of two trays of one symbol; a share is the sum of a rack.
/// let layout = Layout::with_errors(4, 2, 3, 3, 1);
/// let mut codeword = [0; 8];
/// store(layout, &[5, 7, 256], &mut codeword)?;
/// let mut shares = [2, 4, 6].map(|tray| (codeword[tray] + codeword[tray + 1]) % 257);
/// shares[2] = (shares[2] + 256) % 257;
/// let (helpers, mut spare) = ([1, 2, 3].map(Rack::new), [0]);
/// let done = repair_correcting(layout, Tray::new(1), &helpers, &shares, &[5, 9999], &mut spare);
/// assert_eq!(done, Ok(Corrected { rack: Some(Rack::new(3)), crossed: 3 }));
/// assert_eq!(spare, [7]);
/// # Ok::<(), Refusal>(())
/// ```
pub fn repair_correcting(
    layout: Layout,
    lost: Tray,
    helpers: &[Rack],
    shares: &[u16],
    host: &[u16],
    spare: &mut [u16],
) -> Result<Corrected, Refusal> {
    let answer = field257::repair_correcting(layout, lost, helpers, shares, host, spare);
    answered(layout, answer)
}
