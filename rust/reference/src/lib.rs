//! A second program, written from documents 01 and 02, and from the description in
//! words of the calls that came after them: every call in the plainest way, to
//! compare the library with.
//!
//! Every call is written once, over any field; a layout is one of a field, and
//! its calls go by that. Products are worked out bit by bit, or by the rest of a
//! division, and every unknown is found by elimination over the parity checks
//! themselves; there is no table and no closed formula. Speed is no aim.
//!
//! A call never writes what it is lent: it gives back what a lent buffer must
//! hold afterwards. A refused call gives back no buffer, so the buffer stays.

#![forbid(unsafe_code)]

pub mod batch;
pub mod card;
pub mod checks;
pub mod checksum;
pub mod correcting;
pub mod elimination;
pub mod field;
pub mod field256;
pub mod field257;
pub mod gather;
pub mod image;
pub mod kept;
pub mod layout;
pub mod margin;
pub mod part;
pub mod recover;
pub mod recover_correcting;
pub mod refusal;
pub mod repair;
pub mod scrub;
pub mod share;
pub mod sixteen;
pub mod store;
pub mod test;

pub use batch::recover::recover_batch;
pub use batch::repair::repair_batch;
pub use batch::share::share_batch;
pub use batch::store::store_batch;
pub use batch::test::test_batch;
pub use card::{card, card_repair, card_test};
pub use checksum::checksum;
pub use correcting::{repair_correcting, Corrected};
pub use field::Field;
pub use field256::Field256;
pub use field257::Field257;
pub use gather::{gather, gather_rack, states, Gathered};
pub use image::{copy_image, read_image, write_image, Image};
pub use kept::{test_kept, Kept};
pub use layout::{measure, Layer, Layout, Measured, Numbers, Rack, Tray};
pub use margin::margin;
pub use part::{read_part, Asked, Part, Source};
pub use recover::recover;
pub use recover_correcting::{recover_correcting, Recovered};
pub use refusal::Refusal;
pub use repair::{repair, repair_many, Given, GivenMany, Repaired};
pub use scrub::{bad_layers, scrub, scrub_reset, Report, ScrubRecord};
pub use share::{share, share_add, share_add_many, share_many};
pub use store::store;
pub use test::{test, Tested};

/// The states of a tray.
pub const ABSENT: u8 = 0;
pub const LIVE: u8 = 1;
pub const DEMONSTRATION: u8 = 2;
