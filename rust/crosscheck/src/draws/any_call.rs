//! Any call over any layout, its inputs good or spoilt in up to three places.

use super::Draw;
use crate::calls::calls;
use crate::crosscheck::Crosscheck;
use crate::field::FIELDS;

pub const DRAW: Draw = Draw {
    name: "any call",
    gate: 200_000,
    short: 500,
    case,
};

fn case(all: &mut Crosscheck) {
    let field = all.source.random.pick(&FIELDS);
    let call = all.source.random.pick(&calls(field));
    let inputs = all.source.inputs(field, call);
    all.run.compare(call, &inputs);
}
