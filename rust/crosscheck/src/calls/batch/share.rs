//! A helper's share of many codewords.

use super::super::{library_layout, reference_layout, share, Call, Looks};
use super::{whole, Batch, MANY};
use crate::answer::Answer;
use crate::cabinet::Cabinet;
use crate::field::in_field;
use crate::inputs::{Inputs, Kind};
use crate::source::{Source, EITHER};

pub const BATCH: Batch = Batch {
    many: &CALL,
    one: &share::CALL,
    draw,
    numbers: |_, _, _| vec![],
};

pub const CALL: Call = Call {
    name: "share_batch",
    shape: &[
        Kind::Layout,
        Kind::Wide,
        Kind::Small,
        Kind::Small,
        Kind::Symbols,
        Kind::Symbols,
    ],
    errors: EITHER,
    grounds: &[1, 2, 3, 6],
    looks: Looks::AtSome(|_, at, _| at == RACK),
    example: |source, cabinet| BATCH.example(source, cabinet),
    library,
    reference,
};

const RACK: usize = 4;
const SHARE: usize = 5;

/// The racks are those of the first one drawn.
fn draw(source: &mut Source, cabinet: &Cabinet, many: usize) -> Inputs {
    let mut one = || (share::CALL.example)(source, cabinet);
    let like = one();
    let parts: Vec<Inputs> = (0..many).map(|_| one()).collect();
    whole(&like, &parts)
}

fn library(inputs: &Inputs) -> Answer {
    let [host, helper] = [2, 3].map(|at| gesarumbo::Rack::new(inputs.small(at)));
    let (layout, many) = (library_layout(inputs), inputs.wide(MANY) as usize);
    in_field!(inputs.field, {
        let rack = inputs.lent::<F>(RACK);
        let mut share = inputs.lent::<F>(SHARE);
        let (from, to) = (rack.part(), share.part_mut());
        let shared = library::share_batch(layout, many, host, helper, from, to);
        Answer::new(shared.map(|()| []))
            .written(inputs.field, &share)
            .read("the helper's rack", &rack)
    })
}

fn reference(inputs: &Inputs) -> Answer {
    let [host, helper] = [2, 3].map(|at| reference::Rack(inputs.small(at)));
    let many = inputs.wide(MANY);
    in_field!(inputs.field, {
        let [rack, share] = [RACK, SHARE].map(|at| inputs.given::<F>(at));
        let layout = reference_layout::<F>(inputs);
        let shared = reference::share_batch(layout, many, host, helper, &rack, &share);
        Answer::filled(inputs, SHARE, shared)
    })
}
