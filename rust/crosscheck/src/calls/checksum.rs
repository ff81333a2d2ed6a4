//! The checksum, which belongs to neither field.

use super::Call;
use super::Looks;
use crate::answer::Answer;
use crate::cabinet::Cabinet;
use crate::field::Field;
use crate::inputs::{Inputs, Kind, Value};
use crate::lent::Lent;
use crate::random::Random;
use crate::source::Source;
use gesarumbo::Refusal;

/// The field that its cases are counted and written with.
pub const FIELD: Field = Field::Of256;

pub const CALL: Call = Call {
    name: "checksum",
    shape: &[Kind::Wide, Kind::Bytes],
    errors: &[0],
    grounds: &[],
    looks: Looks::AtNone,
    example,
    library,
    reference,
};

pub fn inputs(start: u64, bytes: Vec<u8>) -> Inputs {
    Inputs {
        field: FIELD,
        values: vec![Value::Wide(start), Value::Bytes(bytes)],
    }
}

/// Bytes of any number, mostly few, from nothing or from any checksum on.
fn example(source: &mut Source, _: &Cabinet) -> Inputs {
    let random = &mut source.random;
    let length = match random.below(4) {
        0 => random.below(8),
        1 => 8 * random.below(40),
        2 => random.below(5_000),
        _ => random.below(400),
    };
    let any = random.word();
    let start = random.pick(&[0, 0, u64::MAX, 1, any]);
    inputs(start, some_bytes(random, length))
}

/// Bytes of all kinds, or all alike.
pub fn some_bytes(random: &mut Random, length: usize) -> Vec<u8> {
    let any = random.byte();
    match random.below(6) {
        0 => vec![random.pick(&[0, 1, 128, 255, any]); length],
        _ => random.bytes(length),
    }
}

/// A checksum is an answer without a refusal.
fn answer(checksum: u64) -> Answer {
    Answer::new(Ok::<_, Refusal>([i128::from(checksum)]))
}

fn library(inputs: &Inputs) -> Answer {
    let bytes = Lent::bytes(inputs.bytes(1));
    let checksum = gesarumbo::checksum(inputs.wide(0), bytes.part());
    answer(checksum).read("the bytes", &bytes)
}

fn reference(inputs: &Inputs) -> Answer {
    answer(reference::checksum(inputs.wide(0), inputs.bytes(1)))
}
