//! What stands at the places of a cabinet, as the margin's states.

use super::{gather, library_layout, reference_layout, Call, Looks};
use crate::answer::Answer;
use crate::cabinet::Cabinet;
use crate::field::in_field;
use crate::inputs::{Inputs, Kind, Value};
use crate::lent::Lent;
use crate::source::{Source, EITHER};

pub const CALL: Call = Call {
    name: "states",
    shape: &[Kind::Layout, Kind::Small, Kind::Bytes, Kind::Bytes],
    errors: EITHER,
    grounds: &[1, 2],
    looks: Looks::AtNone,
    example,
    library,
    reference,
};

fn example(source: &mut Source, cabinet: &Cabinet) -> Inputs {
    let (volume, images) = gather::drawn(source, cabinet);
    let states = source.random.bytes(cabinet.numbers.trays);
    inputs(cabinet, volume, images, states)
}

pub fn inputs(cabinet: &Cabinet, volume: u32, images: Vec<u8>, states: Vec<u8>) -> Inputs {
    cabinet.inputs([
        Value::Small(volume),
        Value::Bytes(images),
        Value::Bytes(states),
    ])
}

fn library(inputs: &Inputs) -> Answer {
    let (layout, volume) = (library_layout(inputs), inputs.small(1));
    let images = Lent::bytes(inputs.bytes(2));
    let mut states = Lent::bytes(inputs.bytes(3));
    let (from, to) = (images.part(), states.part_mut());
    let found = in_field!(inputs.field, library::states(layout, volume, from, to));
    Answer::new(found.map(|()| []))
        .written_bytes(&states)
        .read("the images", &images)
}

fn reference(inputs: &Inputs) -> Answer {
    let (volume, images, states) = (inputs.small(1), inputs.bytes(2), inputs.bytes(3));
    let found = in_field!(inputs.field, {
        let layout = reference_layout::<F>(inputs);
        reference::states(layout, volume, images, states)
    });
    Answer::filled_bytes(states, found)
}
