//! The testing of a codeword of which trays are missing.

use crate::ffi::{self, field256};
use crate::{Layer, Layout, Refusal, Tray};

/// What a test found in the trays that are there.
#[derive(Clone, Copy, Debug, PartialEq, Eq)]
pub enum Kept {
    /// A codeword has these trays. With no checks left that is so whatever they hold: nothing could
    /// be tested.
    Sound {
        /// How many checks of each layer were left to test with: r less the erased trays.
        checks: u32,
    },
    /// No codeword has them.
    Bad {
        /// The first layer in which no symbols of the erased trays meet the checks.
        layer: Layer,
        /// How many checks of each layer were left to test with: r less the erased trays.
        checks: u32,
    },
}

/// Tests the trays of a codeword that are not listed as erased: it says what
/// [`recover`](crate::recover()) would find. A bad codeword is an answer and no refusal.
///
/// Sound exactly when a codeword has the trays that are not listed, which is when `recover` is
/// done; else the first layer in which no symbols of the erased trays meet the checks. With none
/// listed this is the verdict, and the layer, of [`test`](crate::test()). Erased trays are not
/// looked at, and nothing is written.
///
/// Refused, in this order: [`Refusal::Layout`]; [`Refusal::Length`] where `codeword` has not n·L
/// bytes; [`Refusal::Number`] where a tray is not below n; [`Refusal::Order`] where the list does
/// not rise; [`Refusal::Count`] where it has more than r trays.
///
/// ```
/// use gesarumbo::{store, test_kept, Kept, Layer, Layout, Refusal, Tray};
///
/// let layout = Layout::new(4, 3, 8, 3);
/// let mut codeword = [0; 12 * 16];
/// store(layout, &[0xA7; 8 * 16], &mut codeword)?;
///
/// // Tray 4 is pulled out: three checks are left for the others.
/// codeword[4 * 16..5 * 16].fill(0xEE);
/// assert_eq!(test_kept(layout, &codeword, &[Tray::new(4)]), Ok(Kept::Sound { checks: 3 }));
/// codeword[11 * 16 + 6] ^= 1;
/// let bad = Kept::Bad { layer: Layer::new(6), checks: 3 };
/// assert_eq!(test_kept(layout, &codeword, &[Tray::new(4)]), Ok(bad));
///
/// // With r trays missing nothing can be tested.
/// let four = [4, 5, 6, 7].map(Tray::new);
/// assert_eq!(test_kept(layout, &codeword, &four), Ok(Kept::Sound { checks: 0 }));
/// # Ok::<(), Refusal>(())
/// ```
pub fn test_kept(layout: Layout, codeword: &[u8], erased: &[Tray]) -> Result<Kept, Refusal> {
    answered(field256::test_kept(layout, codeword, erased))
}

/// What the library's answer means.
pub(crate) fn answered(answer: ffi::Kept) -> Result<Kept, Refusal> {
    let ffi::Kept {
        refusal,
        verdict,
        layer,
        checks,
    } = answer;
    let kept = match verdict {
        1 => Kept::Sound { checks },
        _ => Kept::Bad {
            layer: Layer::new(layer),
            checks,
        },
    };
    Refusal::unless_done(refusal, kept)
}
