//! A helper's shares for several lost trays.

use super::{
    any_lost_count, library_layout, many_shares, reference_layout, Call, Looks, MANY_SHARES,
};
use crate::answer::Answer;
use crate::cabinet::Cabinet;
use crate::field::in_field;
use crate::inputs::Inputs;
use crate::random::Random;
use crate::source::Source;

pub const CALL: Call = Call {
    name: "share_e",
    shape: MANY_SHARES,
    errors: &[0],
    grounds: &[1, 2, 3, 12, 6],
    looks: Looks::AtSome(|inputs, at, _| at == RACK && inputs.small(1) != 0),
    example,
    library,
    reference,
};

const RACK: usize = 4;
const SHARE: usize = 5;

/// Any symbols are a helper's: a codeword's are not needed.
pub fn draw(random: &mut Random, cabinet: &Cabinet, count: usize) -> Inputs {
    let host = random.below(cabinet.numbers.racks) as u32;
    let helper = random.pick(&cabinet.other_racks(host));
    let rack = random.symbols(cabinet.field, cabinet.rack(0).len());
    let share = random.noise(cabinet.field, count * cabinet.numbers.groups);
    many_shares(cabinet, count, host, helper, &rack, share)
}

fn example(source: &mut Source, cabinet: &Cabinet) -> Inputs {
    let count = any_lost_count(&mut source.random, cabinet);
    draw(&mut source.random, cabinet, count)
}

fn library(inputs: &Inputs) -> Answer {
    let [host, helper] = [2, 3].map(|at| gesarumbo::Rack::new(inputs.small(at)));
    let (layout, count) = (library_layout(inputs), inputs.small(1));
    in_field!(inputs.field, {
        let rack = inputs.lent::<F>(RACK);
        let mut share = inputs.lent::<F>(SHARE);
        let (from, to) = (rack.part(), share.part_mut());
        let shared = library::share_many(layout, count, host, helper, from, to);
        Answer::new(shared.map(|()| []))
            .written(inputs.field, &share)
            .read("the helper's rack", &rack)
    })
}

fn reference(inputs: &Inputs) -> Answer {
    let [host, helper] = [2, 3].map(|at| reference::Rack(inputs.small(at)));
    let count = inputs.small(1);
    in_field!(inputs.field, {
        let [rack, share] = [RACK, SHARE].map(|at| inputs.given::<F>(at));
        let layout = reference_layout::<F>(inputs);
        let shared = reference::share_many(layout, count, host, helper, &rack, &share);
        Answer::filled(inputs, SHARE, shared)
    })
}
