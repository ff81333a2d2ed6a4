//! Cases gone through one after another, one file and one entry of [`SWEEPS`]
//! each.

mod batches;
mod box_losses;
mod box_trays;
mod cards;
mod every_layout;
mod header_bytes;
mod large_numbers;
mod least_check;
mod lost_counts;
mod small_layouts;
mod whole_repairs;
mod wrong_shares;
mod wrong_trays;

use crate::crosscheck::Crosscheck;
use crate::source::Source;

pub struct Sweep {
    pub name: &'static str,
    /// How many items it has.
    pub items: fn(&Source) -> usize,
    /// The short form takes one item in so many.
    pub short_step: usize,
    pub item: fn(&mut Crosscheck, usize),
}

pub const SWEEPS: [&Sweep; 13] = [
    &every_layout::SWEEP,
    &small_layouts::SWEEP,
    &least_check::SWEEP,
    &header_bytes::SWEEP,
    &lost_counts::SWEEP,
    &large_numbers::SWEEP,
    &whole_repairs::SWEEP,
    &wrong_shares::SWEEP,
    &wrong_trays::SWEEP,
    &cards::SWEEP,
    &batches::SWEEP,
    &box_losses::SWEEP,
    &box_trays::SWEEP,
];
