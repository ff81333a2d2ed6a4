//! Any call of the sixteen-tray box, its inputs good or spoilt in up to three
//! places.

use super::Draw;
use crate::calls::sixteen::{CALLS, FIELD};
use crate::crosscheck::Crosscheck;

pub const DRAW: Draw = Draw {
    name: "box calls",
    gate: 300_000,
    short: 2_000,
    case,
};

fn case(all: &mut Crosscheck) {
    let call = all.source.random.pick(&CALLS);
    let inputs = all.source.inputs(FIELD, call);
    all.run.compare(call, &inputs);
}
