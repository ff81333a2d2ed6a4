//! The sixteen-tray box of document 02's W11, after Example 1 of source 003: a
//! tray holds one symbol of the field of 16, the value of the data's polynomial
//! at the tray's point.
//!
//! Every unknown is found by the polynomial through the values at hand, worked
//! out a point at a time; there is no table and no closed formula.

pub mod field;
mod points;
pub mod polynomial;
mod recover;
mod repair;
mod share;
mod store;

pub use points::{h, point, points_of};
pub use recover::{data, recover};
pub use repair::{repair, Given, Repaired};
pub use share::{share, top};
pub use store::store;

use crate::layout::{Rack, Tray};

/// The trays, n.
pub const TRAYS: usize = 16;
/// The trays of a rack, u.
pub const SIZE: usize = 4;
/// The racks.
pub const RACKS: usize = 4;
/// The coefficients of the data, k.
pub const DIMENSION: usize = 7;
/// The most trays that may be erased.
pub const MOST_ERASED: usize = TRAYS - DIMENSION;
/// The racks that help in a repair.
pub const HELPERS: usize = 2;

fn has_rack(rack: Rack) -> bool {
    (rack.0 as usize) < RACKS
}

fn has_tray(tray: Tray) -> bool {
    (tray.0 as usize) < TRAYS
}

/// Whether a value is above 15.
fn above(value: u8) -> bool {
    usize::from(value) >= field::SYMBOLS
}
