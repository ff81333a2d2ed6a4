//! The same calls over a second field: the whole numbers modulo 257, with root 3 of order 256.
//!
//! Each call of the crate that takes a layout has a twin here, with the same name and the same
//! answer, over symbols lent as 16-bit numbers. All that is promised of the first field's call is
//! promised of its twin, but for what follows.
//!
//! - **Layouts.** u is 1, 2, 4, 8 or 16, so racks of four can be had; the other conditions are the
//!   first field's. Points are powers of 3, with 256/u in place of 255/u.
//! - **Symbols** are the numbers 0 to 256, and sums are modulo 257 in place of the exclusive or.
//!   Lengths count symbols; images and states stay bytes, and their lengths count bytes.
//! - **A number above 256** is [`Refusal::Number`](crate::Refusal::Number) where the call looks at
//!   it. [`test()`] looks at every symbol before it answers, [`store`] at the data, [`recover`],
//!   [`recover_correcting()`] and [`test_kept()`] at the trays that are not listed, the share calls
//!   at the rack or tray and, where they add, at the shares too, a repair at the share symbols and
//!   sound host symbols of its own groups, [`repair_correcting`] at those of all groups,
//!   [`card_test`] and [`card_repair`] at the card's multipliers, which are numbers 0 to 256 too,
//!   [`write_image`] at the symbols, [`scrub`] at the layers it tests. This holds where the call
//!   would be refused on a later ground too. No call looks at what it only writes, at lost and
//!   erased trays, or at other groups and layers; [`read_part`] and a call for no lost tray look at
//!   no symbol at all. A call for many codewords looks where the call for one does.
//! - **Signs.** Nothing cancels: a tray fed twice to a share counts twice.
//! - **Images** have edition 2 and two bytes a symbol, low byte first: 24 + 2·L bytes. A reader of
//!   one edition takes an image of the other for malformed, and one with a symbol above 256 is
//!   malformed too. [`read_image`] copies the symbols to places that it is lent. For [`states`],
//!   [`gather`] and [`gather_rack`] each place has 24 + 2·L bytes.
//! - **Pieces.** What is promised of repairs and walks cut into pieces is promised for symbols 0 to
//!   256.
//!
//! ```
//! use gesarumbo::field257::{measure, repair, share, store, test};
//! use gesarumbo::{Layout, Rack, Tested, Tray};
//!
//! // Five racks of four trays, fifteen trays' worth of data, four helpers: 20 trays of 32 symbols.
//! let layout = Layout::new(5, 4, 15, 4);
//! assert_eq!(measure(layout)?.layers, 32);
//! let data: Vec<u16> = (0..15 * 32).map(|at| at * 5 % 257).collect();
//! let mut codeword = [0; 20 * 32];
//! store(layout, &data, &mut codeword)?;
//! assert_eq!(test(layout, &codeword), Ok(Tested::Sound));
//!
//! // Tray 6, in rack 1, is lost: the four other racks send 16 symbols each.
//! let racks: Vec<&[u16]> = codeword.chunks(4 * 32).collect();
//! let helpers = [0, 2, 3, 4].map(Rack::new);
//! let mut shares = [0; 4 * 16];
//! for (helper, sent) in helpers.iter().zip(shares.chunks_mut(16)) {
//!     share(layout, Rack::new(1), *helper, racks[helper.number() as usize], sent)?;
//! }
//! let mut spare = [0; 32];
//! let done = repair(layout, Tray::new(6), &helpers, &shares, racks[1], &mut spare, 0, 16)?;
//! assert_eq!(spare, codeword[6 * 32..7 * 32]);
//! assert_eq!((done.groups, done.crossed, done.remaining), (16, 64, 0));
//! # Ok::<(), gesarumbo::Refusal>(())
//! ```

mod batch;
mod card;
mod correcting;
mod gather;
mod image;
mod margin;
mod measure;
mod numbers;
mod reading;
mod recover;
mod recover_correcting;
mod repair;
mod scrub;
mod share;
mod store;
mod test;
mod test_kept;

pub use batch::{repair_batch, share_batch, store_batch};
pub use card::{card, card_repair, card_test};
pub use correcting::repair_correcting;
pub use gather::{gather, gather_rack, states};
pub use image::{read_image, write_image};
pub use margin::margin;
pub use measure::measure;
pub use numbers::numbers;
pub use reading::read_part;
pub use recover::recover;
pub use recover_correcting::recover_correcting;
pub use repair::{repair, repair_many};
pub use scrub::{scrub, scrub_handed, scrub_reset, scrub_reset_handed};
pub use share::{share, share_add, share_add_many, share_many};
pub use store::store;
pub use test::test;
pub use test_kept::test_kept;
