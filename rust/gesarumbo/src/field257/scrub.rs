//! The testing of a stored codeword of this field some layers at a time.

use crate::ffi::field257;
use crate::scrub::reported;
use crate::{Layout, Refusal, ScrubRecord, Scrubbed};

/// Starts a new walk over the codewords of a layout, whatever the record holds, as
/// [`scrub_reset`](crate::scrub_reset) does.
///
/// Refused: [`Refusal::Layout`].
///
/// ```
/// use gesarumbo::field257::scrub_reset;
/// use gesarumbo::{Layout, Refusal, ScrubRecord};
///
/// let mut record = ScrubRecord::new(7, 7, 7);
/// scrub_reset(Layout::new(5, 4, 15, 4), &mut record)?;
/// assert_eq!(record, ScrubRecord::new(0, 0, 32));
/// # Ok::<(), Refusal>(())
/// ```
pub fn scrub_reset(layout: Layout, record: &mut ScrubRecord) -> Result<(), Refusal> {
    let answer = field257::scrub_reset_in_place(layout, record);
    Refusal::unless_done(answer.refusal, ())
}

/// The same reset with the record handed in and back; refused, it comes back as it was.
pub fn scrub_reset_handed(
    layout: Layout,
    record: ScrubRecord,
) -> (Result<(), Refusal>, ScrubRecord) {
    let answer = field257::scrub_reset(layout, record);
    (Refusal::unless_done(answer.refusal, ()), answer.record)
}

/// Looks at the next layers of a codeword of n·L symbols, as many as `budget` allows and are left,
/// as [`scrub`](crate::scrub()) does.
///
/// Refused, in this order: as there, and [`Refusal::Number`] also where a number in one of these
/// layers is above 256.
///
/// ```
/// use gesarumbo::field257::{scrub, scrub_reset};
/// use gesarumbo::{Layout, Refusal, ScrubRecord, Scrubbed};
///
/// let layout = Layout::new(5, 4, 15, 4);
/// let mut codeword = [0; 20 * 32]; // all zero, which is a codeword
/// codeword[32 + 6] = 1; // layer 6 of tray 1
/// codeword[9] = 257; // layer 9 of tray 0
/// let mut record = ScrubRecord::new(0, 0, 0);
/// scrub_reset(layout, &mut record)?;
/// assert_eq!(scrub(layout, &codeword, &mut record, 9), Ok(Scrubbed::Unfinished));
/// assert_eq!(record, ScrubRecord::new(9, 1, 6));
/// assert_eq!(scrub(layout, &codeword, &mut record, 1), Err(Refusal::Number));
/// assert_eq!(record, ScrubRecord::new(9, 1, 6));
/// # Ok::<(), Refusal>(())
/// ```
pub fn scrub(
    layout: Layout,
    codeword: &[u16],
    record: &mut ScrubRecord,
    budget: u64,
) -> Result<Scrubbed, Refusal> {
    let answer = field257::scrub_in_place(layout, codeword, record, budget);
    reported(answer.refusal, answer.report)
}

/// The same call with the record handed in and back; refused, it comes back as it was.
pub fn scrub_handed(
    layout: Layout,
    codeword: &[u16],
    record: ScrubRecord,
    budget: u64,
) -> (Result<Scrubbed, Refusal>, ScrubRecord) {
    let answer = field257::scrub(layout, codeword, record, budget);
    (reported(answer.refusal, answer.report), answer.record)
}
