//! A helper's share for one lost tray.

use super::{library_layout, reference_layout, share_many, Call, Looks, ONE_SHARE};
use crate::answer::Answer;
use crate::cabinet::Cabinet;
use crate::field::in_field;
use crate::inputs::Inputs;
use crate::pair::for_one;
use crate::source::{Source, EITHER};

pub const CALL: Call = Call {
    name: "share",
    shape: ONE_SHARE,
    errors: EITHER,
    grounds: &[1, 2, 3, 6],
    looks: Looks::AtSome(|_, at, _| at == RACK),
    example,
    library,
    reference,
};

const RACK: usize = 3;
const SHARE: usize = 4;

fn example(source: &mut Source, cabinet: &Cabinet) -> Inputs {
    for_one(&share_many::draw(&mut source.random, cabinet, 1)).expect("one is lost")
}

fn library(inputs: &Inputs) -> Answer {
    let [host, helper] = [1, 2].map(|at| gesarumbo::Rack::new(inputs.small(at)));
    let layout = library_layout(inputs);
    in_field!(inputs.field, {
        let rack = inputs.lent::<F>(RACK);
        let mut share = inputs.lent::<F>(SHARE);
        let shared = library::share(layout, host, helper, rack.part(), share.part_mut());
        Answer::new(shared.map(|()| []))
            .written(inputs.field, &share)
            .read("the helper's rack", &rack)
    })
}

fn reference(inputs: &Inputs) -> Answer {
    let [host, helper] = [1, 2].map(|at| reference::Rack(inputs.small(at)));
    in_field!(inputs.field, {
        let [rack, share] = [RACK, SHARE].map(|at| inputs.given::<F>(at));
        let layout = reference_layout::<F>(inputs);
        let shared = reference::share(layout, host, helper, &rack, &share);
        Answer::filled(inputs, SHARE, shared)
    })
}
