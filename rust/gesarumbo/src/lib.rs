//! Rack-aware erasure coding for packaged record stores, every call proved.
//!
//! A cabinet has B racks of u trays, n = B·u trays in all, and stores k trays' worth of data. Any
//! k trays give back the rest. When one tray is lost, d other racks each work out a share of L/s
//! symbols from their own trays, and the tray comes back from these shares and the sound trays of
//! its own rack. So d·L/s symbols cross between the racks, the published least. Up to u − v lost
//! trays of one rack, v = k mod u, are repaired together, and as many symbols cross for each. In a
//! layout with E = 1 one helper's share may be wrong: the tray comes back exactly all the same, and
//! the rack is named.
//!
//! Here K = k/u (whole), s = d − K + 1 − 2·E, and L = s to the power B. A tray has L symbols of one
//! byte, in layers 0 to L − 1, and a layer has r = n − k parity checks. A codeword lies tray after
//! tray, symbol j of tray x at x·L + j, so that a rack's trays lie side by side.
//!
//! ```
//! use gesarumbo::{repair, share, store, Layout, Rack, Tray};
//!
//! // Three racks of one tray, one tray's worth of data, two helpers.
//! let layout = Layout::new(3, 1, 1, 2);
//! let data = [0x14, 0x14, 0x18, 0x18, 0x24, 0x24, 0x28, 0x28];
//! let mut codeword = [0; 24];
//! store(layout, &data, &mut codeword)?;
//!
//! // Tray 0 is lost: racks 1 and 2 send four symbols each.
//! let (host, lost, helpers) = (Rack::new(0), Tray::new(0), [Rack::new(1), Rack::new(2)]);
//! let (mut shares, mut spare) = ([0; 8], [0; 8]);
//! share(layout, host, helpers[0], &codeword[8..16], &mut shares[..4])?;
//! share(layout, host, helpers[1], &codeword[16..], &mut shares[4..])?;
//! let done = repair(layout, lost, &helpers, &shares, &codeword[..8], &mut spare, 0, 4)?;
//! assert_eq!(spare, data);
//! assert_eq!((done.groups, done.crossed, done.remaining), (4, 8, 0));
//! # Ok::<(), gesarumbo::Refusal>(())
//! ```
//!
//! # What every call keeps
//!
//! Any layout, number, list and buffer may be given; nobody has to look first. Every call ends with
//! an answer. It is refused exactly when one of the numbered grounds of [`Refusal`] applies, on the
//! first that does, and a refused call has changed no byte of any buffer. A call that is done has
//! written what it says and nothing else.
//!
//! # From trays to records
//!
//! Which trays are good is no question for the caller. [`gather()`] takes what stands at all places
//! of a cabinet, anything at all, and gives the symbols of the live images of this layout, volume
//! and place, and the list of the other trays; nothing else that stands there has any effect. Then
//! [`test_kept()`] tests what is there, [`recover_correcting()`] brings back what is missing and puts
//! right one tray that is wrong, and both say how many checks were left to find it with.
//! [`gather_rack()`] does this for one rack, for a share or a repair.
//!
//! # Many codewords a call
//!
//! A batch is `many` codewords of one layout, interleaved: symbol j of tray x of codeword q stands at
//! (x·L + j)·many + q. Data, racks, shares and spares lie likewise: what stands at i in the call for
//! one codeword stands at i·many + q, and codeword q has every many-th symbol from q on, its part. A
//! call for a batch does to each part what the call for one codeword does, with the same layout,
//! numbers and lists for all. It is refused on that call's grounds, in that order, with lengths
//! times `many`, which may be any number: a ground applies where it does to one of the parts, and a
//! refused call has changed none of them. With `many` 0 all buffers are empty, and layout, numbers
//! and lists are judged all the same; with `many` 1 answer and symbols are those of the call for
//! one. The calls are [`store_batch`], [`share_batch`] and [`repair_batch`].
//!
//! A second field, in which racks of two, four, eight and sixteen trays can be had, has the same
//! calls in [`field257`].
//!
//! These are theorems about the library that this crate links, and not tests. The crate adds the
//! kinds and, with [`numbers()`], the numbers that a layout's letters stand for; nothing of its own
//! happens between a call and the proved function. It needs no standard library and allocates
//! nothing.

#![no_std]
#![deny(missing_docs)]
#![deny(unsafe_code)]
#![deny(unsafe_op_in_unsafe_fn)]

#[allow(unsafe_code)]
mod ffi;

mod batch;
mod card;
mod checksum;
mod correcting;
pub mod field257;
mod gather;
mod image;
mod kinds;
mod layout;
mod margin;
mod measure;
mod numbers;
mod reading;
mod recover;
mod recover_correcting;
mod refusal;
mod repair;
mod scrub;
mod share;
pub mod sixteen;
mod state;
mod store;
mod test;
mod test_kept;

pub use batch::{repair_batch, share_batch, store_batch};
pub use card::{card, card_repair, card_test};
pub use checksum::checksum;
pub use correcting::{repair_correcting, Corrected};
pub use gather::{gather, gather_rack, states};
pub use image::{read_image, write_image, Image};
pub use kinds::{Layer, Rack, Tray};
pub use layout::Layout;
pub use margin::margin;
pub use measure::{measure, Measured};
pub use numbers::{numbers, Numbers};
pub use reading::read_part;
pub use recover::recover;
pub use recover_correcting::{recover_correcting, Recovered};
pub use refusal::Refusal;
pub use repair::{repair, repair_many, Repaired};
pub use scrub::{scrub, scrub_handed, scrub_reset, scrub_reset_handed, ScrubRecord, Scrubbed};
pub use share::{share, share_add, share_add_many, share_many};
pub use state::{ABSENT, DEMONSTRATION, LIVE};
pub use store::store;
pub use test::{test, Tested};
pub use test_kept::{test_kept, Kept};
