//! The testing of a stored codeword some layers at a time.

use crate::ffi::field256;
use crate::{Layout, Refusal};

/// The record of a walk over a codeword's layers.
///
/// It may be kept anywhere between two calls. Whatever it holds, a call either takes it or refuses
/// it; one from [`scrub_reset`] on, over the same layout and codeword and changed by nobody else,
/// holds exactly what has been seen.
#[repr(C)]
#[derive(Clone, Copy, Debug, PartialEq, Eq, Hash)]
pub struct ScrubRecord {
    /// The next layer to look at; L, which is no layer, where all have been seen.
    pub next: u32,
    /// How many layers below the next are bad.
    pub bad: u32,
    /// The first bad layer; L where there is none.
    pub first: u32,
}

impl ScrubRecord {
    /// A record of these numbers: next layer, count of bad layers, first bad layer.
    pub const fn new(next: u32, bad: u32, first: u32) -> ScrubRecord {
        ScrubRecord { next, bad, first }
    }
}

/// What a call of a walk reports.
#[derive(Clone, Copy, Debug, PartialEq, Eq)]
pub enum Scrubbed {
    /// Some layers have not been looked at.
    Unfinished,
    /// All layers have been looked at, and none is bad: a walk over one codeword from a reset on
    /// has found it sound.
    Sound,
    /// All layers have been looked at, and some are bad.
    Bad,
}

/// Starts a new walk over the codewords of a layout, whatever the record holds.
///
/// Done: the next layer is 0, no layer is bad, and the first bad one is L. Refused: the record is
/// as it was.
///
/// Refused: [`Refusal::Layout`].
///
/// ```
/// use gesarumbo::{scrub_reset, Layout, Refusal, ScrubRecord};
///
/// let mut record = ScrubRecord::new(7, 7, 7);
/// assert_eq!(scrub_reset(Layout::new(4, 4, 8, 3), &mut record), Err(Refusal::Layout));
/// assert_eq!(record, ScrubRecord::new(7, 7, 7));
/// assert_eq!(scrub_reset(Layout::new(3, 1, 1, 2), &mut record), Ok(()));
/// assert_eq!(record, ScrubRecord::new(0, 0, 8));
/// ```
pub fn scrub_reset(layout: Layout, record: &mut ScrubRecord) -> Result<(), Refusal> {
    let answer = field256::scrub_reset_in_place(layout, record);
    Refusal::unless_done(answer.refusal, ())
}

/// The same reset with the record handed in and back; refused, it comes back as it was.
///
/// ```
/// use gesarumbo::{scrub_reset_handed, Layout, ScrubRecord};
///
/// let (reset, record) = scrub_reset_handed(Layout::new(3, 1, 1, 2), ScrubRecord::new(7, 7, 7));
/// assert_eq!((reset, record), (Ok(()), ScrubRecord::new(0, 0, 8)));
/// ```
pub fn scrub_reset_handed(
    layout: Layout,
    record: ScrubRecord,
) -> (Result<(), Refusal>, ScrubRecord) {
    let answer = field256::scrub_reset(layout, record);
    (Refusal::unless_done(answer.refusal, ()), answer.record)
}

/// Looks at the next layers of a codeword of n·L bytes, as many as `budget` allows and are left.
///
/// Done: the record's next layer is that much higher. After each call of a walk begun by
/// [`scrub_reset`], with codeword, layout and record not changed between calls, the record holds
/// exactly how many layers below the next are bad (some check broken) and the least of them. The
/// report is unfinished while the next layer is below L; at L it is sound exactly when no layer is
/// bad. A budget of 0 looks at nothing and reports. Refused: the record is as it was.
///
/// Refused, in this order: [`Refusal::Layout`]; [`Refusal::Length`] where the bytes are not n·L;
/// [`Refusal::Number`] where the next layer is above L, the count of bad layers above the next
/// layer, or the first bad layer not L with a count of 0 or not below the next layer otherwise.
///
/// ```
/// use gesarumbo::{scrub, scrub_reset, Layout, Refusal, ScrubRecord, Scrubbed};
///
/// let layout = Layout::new(3, 1, 1, 2);
/// let mut codeword = [
///     0x14, 0x14, 0x18, 0x18, 0x24, 0x24, 0x28, 0x28, // tray 0
///     0x11, 0x12, 0x11, 0x12, 0x21, 0x22, 0x21, 0x22, // tray 1
///     0x05, 0x06, 0x09, 0x0A, 0x05, 0x06, 0x09, 0x0A, // tray 2
/// ];
/// let mut record = ScrubRecord::new(0, 0, 0);
/// scrub_reset(layout, &mut record)?;
/// assert_eq!(scrub(layout, &codeword, &mut record, 5), Ok(Scrubbed::Unfinished));
/// assert_eq!(record, ScrubRecord::new(5, 0, 8));
/// assert_eq!(scrub(layout, &codeword[1..], &mut record, 5), Err(Refusal::Length));
/// assert_eq!(scrub(layout, &codeword, &mut record, 5), Ok(Scrubbed::Sound));
///
/// codeword[8 + 6] ^= 1; // layer 6 of tray 1
/// scrub_reset(layout, &mut record)?;
/// assert_eq!(scrub(layout, &codeword, &mut record, u64::MAX), Ok(Scrubbed::Bad));
/// assert_eq!(record, ScrubRecord::new(8, 1, 6));
/// # Ok::<(), gesarumbo::Refusal>(())
/// ```
pub fn scrub(
    layout: Layout,
    codeword: &[u8],
    record: &mut ScrubRecord,
    budget: u64,
) -> Result<Scrubbed, Refusal> {
    let answer = field256::scrub_in_place(layout, codeword, record, budget);
    reported(answer.refusal, answer.report)
}

/// The same call with the record handed in and back; refused, it comes back as it was.
///
/// ```
/// use gesarumbo::{scrub_handed, Layout, ScrubRecord, Scrubbed};
///
/// let codeword = [0; 3 * 8]; // all zero, which is a codeword
/// let begun = ScrubRecord::new(0, 0, 8);
/// let (report, record) = scrub_handed(Layout::new(3, 1, 1, 2), &codeword, begun, 5);
/// assert_eq!((report, record), (Ok(Scrubbed::Unfinished), ScrubRecord::new(5, 0, 8)));
/// ```
pub fn scrub_handed(
    layout: Layout,
    codeword: &[u8],
    record: ScrubRecord,
    budget: u64,
) -> (Result<Scrubbed, Refusal>, ScrubRecord) {
    let answer = field256::scrub(layout, codeword, record, budget);
    (reported(answer.refusal, answer.report), answer.record)
}

/// What the numbers of an answer to a call mean.
pub(crate) fn reported(refusal: u32, report: u32) -> Result<Scrubbed, Refusal> {
    let scrubbed = match report {
        1 => Scrubbed::Unfinished,
        2 => Scrubbed::Sound,
        _ => Scrubbed::Bad,
    };
    Refusal::unless_done(refusal, scrubbed)
}
