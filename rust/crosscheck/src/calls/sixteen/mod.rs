//! The calls of the sixteen-tray box, one file and one entry of [`CALLS`] each.
//! They have no layout, so their examples are the same over every cabinet.

pub mod data;
pub mod recover;
pub mod repair;
pub mod share;
pub mod store;

use super::{Call, Looks};
use crate::cabinet::Cabinet;
use crate::field::Field;
use crate::inputs::{Inputs, Kind, Value};
use crate::random::Random;
use reference::sixteen::{DIMENSION, HELPERS, MOST_ERASED, RACKS, SIZE, TRAYS};
use reference::{Numbers, Tray};

pub const CALLS: [&Call; 5] = [
    &store::CALL,
    &data::CALL,
    &recover::CALL,
    &share::CALL,
    &repair::CALL,
];

/// The field that the box's inputs name, though it is of neither: its symbols are
/// lent as bytes, and its vectors stand in files of this one.
pub const FIELD: Field = Field::Of256;

/// The box's numbers in place of a layout's: what a spoilt input is near to.
pub const NUMBERS: Cabinet = Cabinet {
    field: FIELD,
    layout: [
        RACKS as u32,
        SIZE as u32,
        DIMENSION as u32,
        HELPERS as u32,
        0,
    ],
    numbers: Numbers {
        racks: RACKS,
        size: SIZE,
        dimension: DIMENSION,
        helpers: HELPERS,
        trays: TRAYS,
        checks: MOST_ERASED,
        rack_checks: RACKS - HELPERS,
        base: 1,
        layers: 1,
        groups: 1,
    },
};

/// The inputs of a call of the box.
pub fn inputs(values: Vec<Value>) -> Inputs {
    Inputs {
        field: FIELD,
        values,
    }
}

/// So many symbols of the field of 16.
pub fn symbols(random: &mut Random, count: usize) -> Vec<u8> {
    random.bytes(count).iter().map(|byte| byte % 16).collect()
}

/// What turns a symbol into another one.
pub fn difference(random: &mut Random) -> u8 {
    1 + random.below(15) as u8
}

/// The word of some data, by the second program.
pub fn word(random: &mut Random) -> Vec<u8> {
    let data = symbols(random, DIMENSION);
    reference::sixteen::store(&data, &[0; TRAYS]).expect("the data are symbols")
}

/// A rack's values.
pub fn rack_of(values: &[u8], rack: u32) -> &[u8] {
    &values[SIZE * rack as usize..][..SIZE]
}

/// The inputs of a recovery: the trays listed hold anything.
pub fn erase(random: &mut Random, mut values: Vec<u8>, erased: &[u32]) -> Inputs {
    for &tray in erased {
        values[tray as usize] = random.byte();
    }
    inputs(vec![Value::Bytes(values), Value::List(erased.to_vec())])
}

/// The kinds of these inputs.
const ERASED: &[Kind] = &[Kind::Bytes, Kind::List];

/// A word with erased trays, at times with a damaged survivor, at times any
/// symbols.
fn survivors(random: &mut Random) -> Inputs {
    let count = match random.below(6) {
        0 => 0,
        1 => MOST_ERASED,
        2 => MOST_ERASED - 1,
        _ => random.below(MOST_ERASED + 1),
    };
    let erased = random.some_of(count, NUMBERS.tray_numbers());
    let values = match random.below(6) {
        0 => symbols(random, TRAYS),
        1 | 2 => {
            let mut values = word(random);
            values[random.below(TRAYS)] ^= difference(random);
            values
        }
        _ => word(random),
    };
    erase(random, values, &erased)
}

/// The erased list of the second program.
fn reference_trays(inputs: &Inputs) -> Vec<Tray> {
    inputs.list(1).iter().copied().map(Tray).collect()
}
