//! Recovering erased trays of the box.

use super::{reference_trays, survivors, Call, Looks, ERASED};
use crate::answer::Answer;
use crate::inputs::Inputs;
use crate::lent::Lent;

pub const CALL: Call = Call {
    name: "box_recover",
    shape: ERASED,
    errors: &[0],
    grounds: &[2, 3, 4, 5, 8],
    looks: Looks::AtNone,
    example: |source, _| survivors(&mut source.random),
    library,
    reference,
};

fn library(inputs: &Inputs) -> Answer {
    let mut values = Lent::bytes(inputs.bytes(0));
    let erased = Lent::list(inputs.list(1), gesarumbo::Tray::new);
    let recovered = gesarumbo::sixteen::recover(values.part_mut(), erased.part());
    Answer::new(recovered.map(|()| []))
        .written_bytes(&values)
        .read("the erased list", &erased)
}

fn reference(inputs: &Inputs) -> Answer {
    let values = inputs.bytes(0);
    let erased = reference_trays(inputs);
    Answer::filled_bytes(values, reference::sixteen::recover(values, &erased))
}
