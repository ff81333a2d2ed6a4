//! Storing in the box.

use super::{symbols, Call, Looks};
use crate::answer::Answer;
use crate::inputs::{Inputs, Kind, Value};
use crate::lent::Lent;
use crate::random::Random;
use reference::sixteen::{DIMENSION, TRAYS};

pub const CALL: Call = Call {
    name: "box_store",
    shape: &[Kind::Bytes, Kind::Bytes],
    errors: &[0],
    grounds: &[2, 3],
    looks: Looks::AtNone,
    example: |source, _| example(&mut source.random),
    library,
    reference,
};

fn example(random: &mut Random) -> Inputs {
    let data = symbols(random, DIMENSION);
    inputs(random, data)
}

/// The inputs for these data, over 16 bytes of anything.
pub fn inputs(random: &mut Random, data: Vec<u8>) -> Inputs {
    let values = random.bytes(TRAYS);
    super::inputs(vec![Value::Bytes(data), Value::Bytes(values)])
}

fn library(inputs: &Inputs) -> Answer {
    let data = Lent::bytes(inputs.bytes(0));
    let mut values = Lent::bytes(inputs.bytes(1));
    let stored = gesarumbo::sixteen::store(data.part(), values.part_mut());
    Answer::new(stored.map(|()| []))
        .written_bytes(&values)
        .read("the data", &data)
}

fn reference(inputs: &Inputs) -> Answer {
    let [data, values] = [inputs.bytes(0), inputs.bytes(1)];
    Answer::filled_bytes(values, reference::sixteen::store(data, values))
}
