//! One tray's part, added to a share for one lost tray.

use super::{library_layout, reference_layout, share_add_many, Call, Looks, ONE_SHARE};
use crate::answer::Answer;
use crate::cabinet::Cabinet;
use crate::field::in_field;
use crate::inputs::Inputs;
use crate::pair::for_one;
use crate::source::{Source, EITHER};

pub const CALL: Call = Call {
    name: "share_add",
    shape: ONE_SHARE,
    errors: EITHER,
    grounds: &[1, 2, 3, 6],
    looks: Looks::AtAll,
    example,
    library,
    reference,
};

const TRAY: usize = 3;
const SHARE: usize = 4;

fn example(source: &mut Source, cabinet: &Cabinet) -> Inputs {
    for_one(&share_add_many::draw(&mut source.random, cabinet, 1)).expect("one is lost")
}

fn library(inputs: &Inputs) -> Answer {
    let host = gesarumbo::Rack::new(inputs.small(1));
    let tray = gesarumbo::Tray::new(inputs.small(2));
    let layout = library_layout(inputs);
    in_field!(inputs.field, {
        let symbols = inputs.lent::<F>(TRAY);
        let mut share = inputs.lent::<F>(SHARE);
        let added = library::share_add(layout, host, tray, symbols.part(), share.part_mut());
        Answer::new(added.map(|()| []))
            .written(inputs.field, &share)
            .read("the tray", &symbols)
    })
}

fn reference(inputs: &Inputs) -> Answer {
    let host = reference::Rack(inputs.small(1));
    let tray = reference::Tray(inputs.small(2));
    in_field!(inputs.field, {
        let [symbols, share] = [TRAY, SHARE].map(|at| inputs.given::<F>(at));
        let layout = reference_layout::<F>(inputs);
        let added = reference::share_add(layout, host, tray, &symbols, &share);
        Answer::filled(inputs, SHARE, added)
    })
}
