//! Random cases, one file and one entry of [`DRAWS`] each.

mod any_call;
mod batches;
mod box_calls;
mod checksums;
mod cutting;
mod erased_and_wrong;
mod feeds;
mod one_lost;
mod reading;
mod same_group;
mod trays_to_records;
mod walks;
mod wrong_share;

use crate::crosscheck::Crosscheck;

pub struct Draw {
    pub name: &'static str,
    /// How many cases the gate runs.
    pub gate: usize,
    /// How many the short form runs.
    pub short: usize,
    pub case: fn(&mut Crosscheck),
}

pub const DRAWS: [&Draw; 13] = [
    &any_call::DRAW,
    &cutting::DRAW,
    &feeds::DRAW,
    &one_lost::DRAW,
    &reading::DRAW,
    &same_group::DRAW,
    &walks::DRAW,
    &wrong_share::DRAW,
    &erased_and_wrong::DRAW,
    &trays_to_records::DRAW,
    &batches::DRAW,
    &box_calls::DRAW,
    &checksums::DRAW,
];
