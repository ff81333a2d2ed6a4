//! The loss margin.

use super::{library_layout, reference_layout, Call, Looks};
use crate::answer::Answer;
use crate::cabinet::Cabinet;
use crate::field::in_field;
use crate::inputs::{Inputs, Kind, Value};
use crate::lent::Lent;
use crate::source::{Source, EITHER};

pub const CALL: Call = Call {
    name: "margin",
    shape: &[Kind::Layout, Kind::Bytes],
    errors: EITHER,
    grounds: &[1, 2, 3],
    looks: Looks::AtNone,
    example,
    library,
    reference,
};

/// States of all kinds, or of two kinds, or of one.
fn example(source: &mut Source, cabinet: &Cabinet) -> Inputs {
    let random = &mut source.random;
    let kinds: [u8; 3] = [(); 3].map(|()| random.below(3) as u8);
    let states = (0..cabinet.numbers.trays)
        .map(|_| random.pick(&kinds))
        .collect();
    cabinet.inputs([Value::Bytes(states)])
}

fn library(inputs: &Inputs) -> Answer {
    let states = Lent::bytes(inputs.bytes(1));
    let layout = library_layout(inputs);
    let margin = in_field!(inputs.field, library::margin(layout, states.part()));
    Answer::new(margin.map(|margin| [i128::from(margin)])).read("the states", &states)
}

fn reference(inputs: &Inputs) -> Answer {
    let states = inputs.bytes(1);
    let margin = in_field!(
        inputs.field,
        reference::margin(reference_layout::<F>(inputs), states)
    );
    Answer::new(margin.map(|margin| [i128::from(margin)]))
}
