//! One tray's part, added to its rack's shares for several lost trays.

use super::{
    any_lost_count, library_layout, many_shares, reference_layout, Call, Looks, MANY_SHARES,
};
use crate::answer::Answer;
use crate::cabinet::Cabinet;
use crate::field::in_field;
use crate::inputs::Inputs;
use crate::random::Random;
use crate::source::Source;

pub const CALL: Call = Call {
    name: "share_add_e",
    shape: MANY_SHARES,
    errors: &[0],
    grounds: &[1, 2, 3, 12, 6],
    looks: Looks::AtSome(|inputs, _, _| inputs.small(1) != 0),
    example,
    library,
    reference,
};

const TRAY: usize = 4;
const SHARE: usize = 5;

/// Any symbols are a tray's, and any are shares as far as they have been built up.
pub fn draw(random: &mut Random, cabinet: &Cabinet, count: usize) -> Inputs {
    let host = random.below(cabinet.numbers.racks) as u32;
    let helper = random.pick(&cabinet.other_racks(host));
    let tray = random.pick(&cabinet.trays_of(helper));
    let symbols = random.symbols(cabinet.field, cabinet.numbers.layers);
    let share = random.symbols(cabinet.field, count * cabinet.numbers.groups);
    many_shares(cabinet, count, host, tray, &symbols, share)
}

fn example(source: &mut Source, cabinet: &Cabinet) -> Inputs {
    let count = any_lost_count(&mut source.random, cabinet);
    draw(&mut source.random, cabinet, count)
}

fn library(inputs: &Inputs) -> Answer {
    let host = gesarumbo::Rack::new(inputs.small(2));
    let tray = gesarumbo::Tray::new(inputs.small(3));
    let (layout, count) = (library_layout(inputs), inputs.small(1));
    in_field!(inputs.field, {
        let symbols = inputs.lent::<F>(TRAY);
        let mut share = inputs.lent::<F>(SHARE);
        let (from, to) = (symbols.part(), share.part_mut());
        let added = library::share_add_many(layout, count, host, tray, from, to);
        Answer::new(added.map(|()| []))
            .written(inputs.field, &share)
            .read("the tray", &symbols)
    })
}

fn reference(inputs: &Inputs) -> Answer {
    let host = reference::Rack(inputs.small(2));
    let tray = reference::Tray(inputs.small(3));
    let count = inputs.small(1);
    in_field!(inputs.field, {
        let [symbols, share] = [TRAY, SHARE].map(|at| inputs.given::<F>(at));
        let layout = reference_layout::<F>(inputs);
        let added = reference::share_add_many(layout, count, host, tray, &symbols, &share);
        Answer::filled(inputs, SHARE, added)
    })
}
