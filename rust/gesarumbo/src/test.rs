//! The testing of a codeword.

use crate::ffi::{self, field256};
use crate::{Layer, Layout, Refusal};

/// What a test found.
#[derive(Clone, Copy, Debug, PartialEq, Eq)]
pub enum Tested {
    /// Every check of every layer holds.
    Sound,
    /// Some check is broken.
    Bad {
        /// The first layer with a broken check.
        layer: Layer,
        /// The least t whose check is broken in that layer.
        check: u32,
    },
}

/// Tests whether n·L bytes are a codeword; a bad one is an answer and no refusal.
///
/// Sound exactly when every check holds, else the first bad layer and the least check broken there.
/// Nothing is written.
///
/// Refused, in this order: [`Refusal::Layout`]; [`Refusal::Length`] where the bytes are not n·L.
///
/// ```
/// use gesarumbo::{test, Layer, Layout, Tested};
///
/// let layout = Layout::new(2, 1, 1, 1);
/// assert_eq!(test(layout, &[0xA7, 0xA7]), Ok(Tested::Sound));
/// assert_eq!(test(layout, &[0xA7, 0xA6]), Ok(Tested::Bad { layer: Layer::new(0), check: 0 }));
/// ```
pub fn test(layout: Layout, codeword: &[u8]) -> Result<Tested, Refusal> {
    answered(field256::test(layout, codeword))
}

/// What the library's answer means.
pub(crate) fn answered(answer: ffi::Tested) -> Result<Tested, Refusal> {
    let ffi::Tested {
        refusal,
        verdict,
        layer,
        check,
    } = answer;
    let tested = match verdict {
        1 => Tested::Sound,
        _ => Tested::Bad {
            layer: Layer::new(layer),
            check,
        },
    };
    Refusal::unless_done(refusal, tested)
}
