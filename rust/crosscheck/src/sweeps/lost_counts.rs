//! Shares and repairs for every number of lost trays, their buffers as long as it
//! says: refused with 12 exactly where it is not 1 to u − v, before 6 and after 5.

use super::Sweep;
use crate::cabinet::Cabinet;
use crate::calls::{repair_many, share_add_many, share_many, Call};
use crate::crosscheck::Crosscheck;
use crate::given::Given;
use crate::inputs::{Inputs, Value};
use crate::source::Source;

/// An item is a layout.
pub const SWEEP: Sweep = Sweep {
    name: "lost counts",
    items: |source| cabinets(source).count(),
    short_step: 80,
    item,
};

/// Of the layouts with one layer, one in so many.
const FLAT_STEP: usize = 2;

fn cabinets(source: &Source) -> impl Iterator<Item = Cabinet> + '_ {
    source.small(0, FLAT_STEP)
}

/// A count that is 1 in its lowest byte.
const FAR: usize = 257;

fn item(all: &mut Crosscheck, at: usize) {
    let cabinet = cabinets(&all.source).nth(at).expect("an item is a layout");
    let size = cabinet.numbers.size;
    for count in (0..=size + 1).chain([FAR]) {
        // The refusal of a call that would otherwise get this one.
        let with = |other| if outside(&cabinet, count) { 12 } else { other };
        shares(all, &cabinet, count, with);
        if count <= size {
            repairs(all, &cabinet, count, with);
        }
    }
}

fn outside(cabinet: &Cabinet, count: usize) -> bool {
    let [_, size, dimension, ..] = cabinet.layout.map(|number| number as usize);
    count == 0 || count > size - dimension % size
}

/// Good ones, and such where the host rack is the helper.
fn shares(all: &mut Crosscheck, cabinet: &Cabinet, count: usize, with: impl Fn(u32) -> u32) {
    let random = &mut all.source.random;
    let mut share = share_many::draw(random, cabinet, count);
    let mut add = share_add_many::draw(random, cabinet, count);
    answered(all, &share_many::CALL, &share, with(0));
    answered(all, &share_add_many::CALL, &add, with(0));
    share.values[2] = Value::Small(share.small(3));
    add.values[2] = Value::Small(cabinet.rack_of(add.small(3)));
    answered(all, &share_many::CALL, &share, with(6));
    answered(all, &share_add_many::CALL, &add, with(6));
}

/// Good ones, such where the host rack is a helper, and one helper too few.
fn repairs(all: &mut Crosscheck, cabinet: &Cabinet, count: usize, with: impl Fn(u32) -> u32) {
    let random = &mut all.source.random;
    let lost = cabinet.lost(random, count);
    let mut given = Given::draw(random, cabinet, lost);
    let good = given.some_piece(random);
    given.helpers[0] = given.rack();
    given.helpers.sort();
    let host_helps = given.some_piece(random);
    given.helpers.pop();
    let too_few = given.some_piece(random);
    for (piece, refusal) in [(good, with(0)), (host_helps, with(6)), (too_few, 5)] {
        answered(all, &repair_many::CALL, &piece, refusal);
    }
}

fn answered(all: &mut Crosscheck, call: &Call, inputs: &Inputs, refusal: u32) {
    let answer = all.run.compare(call, inputs);
    all.run.claim(answer.refusal == refusal, || {
        format!("{} {inputs}: {answer}, not {refusal}", call.name)
    });
}
