//! The layout call.

use super::{library_layout, reference_layout, Call, Looks};
use crate::answer::Answer;
use crate::field::in_field;
use crate::inputs::{Inputs, Kind};
use crate::source::EITHER;

pub const CALL: Call = Call {
    name: "layout",
    shape: &[Kind::Layout],
    errors: EITHER,
    grounds: &[1],
    looks: Looks::AtNone,
    example: |_, cabinet| cabinet.inputs([]),
    library,
    reference,
};

fn library(inputs: &Inputs) -> Answer {
    let layout = library_layout(inputs);
    let measured = in_field!(inputs.field, library::measure(layout));
    Answer::new(measured.map(|m| [m.layers, m.checks, m.traffic].map(i128::from)))
}

fn reference(inputs: &Inputs) -> Answer {
    let measured = in_field!(
        inputs.field,
        reference::measure(reference_layout::<F>(inputs))
    );
    Answer::new(measured.map(|m| [m.layers, m.checks, m.traffic].map(i128::from)))
}
