//! The data of the box from its survivors.

use super::{reference_trays, survivors, Call, Looks};
use crate::answer::Answer;
use crate::inputs::{Inputs, Kind, Value};
use crate::lent::Lent;
use crate::random::Random;
use reference::sixteen::DIMENSION;

pub const CALL: Call = Call {
    name: "box_data",
    shape: &[Kind::Bytes, Kind::List, Kind::Bytes],
    errors: &[0],
    grounds: &[2, 3, 4, 5, 8],
    looks: Looks::AtNone,
    example: |source, _| {
        let from = survivors(&mut source.random);
        inputs(&mut source.random, &from)
    },
    library,
    reference,
};

/// The inputs of a recovery, and 7 bytes of anything.
pub fn inputs(random: &mut Random, recovery: &Inputs) -> Inputs {
    let mut inputs = recovery.clone();
    inputs.values.push(Value::Bytes(random.bytes(DIMENSION)));
    inputs
}

fn library(inputs: &Inputs) -> Answer {
    let values = Lent::bytes(inputs.bytes(0));
    let erased = Lent::list(inputs.list(1), gesarumbo::Tray::new);
    let mut data = Lent::bytes(inputs.bytes(2));
    let given = gesarumbo::sixteen::data(values.part(), erased.part(), data.part_mut());
    Answer::new(given.map(|()| []))
        .written_bytes(&data)
        .read("the values", &values)
        .read("the erased list", &erased)
}

fn reference(inputs: &Inputs) -> Answer {
    let [values, data] = [inputs.bytes(0), inputs.bytes(2)];
    let erased = reference_trays(inputs);
    Answer::filled_bytes(data, reference::sixteen::data(values, &erased, data))
}
