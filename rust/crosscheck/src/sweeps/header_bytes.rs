//! Reading images with each byte of the header and of the first symbols changed to
//! each value, and cut or stretched to each length.

use super::Sweep;
use crate::cabinet::Cabinet;
use crate::calls::{copy_image, read_image, write_image};
use crate::crosscheck::Crosscheck;
use crate::field::Field;
use crate::inputs::Value;
use reference::image::HEADER;

/// An item is an image.
pub const SWEEP: Sweep = Sweep {
    name: "header bytes",
    items: |_| 2 * LAYOUTS.len(),
    short_step: 6,
    item,
};

const LAYOUTS: [(Field, [u32; 5]); 16] = [
    (Field::Of256, [2, 1, 1, 1, 0]),
    (Field::Of256, [3, 1, 1, 2, 0]),
    (Field::Of256, [4, 3, 8, 3, 0]),
    (Field::Of256, [4, 3, 5, 2, 0]),
    (Field::Of256, [2, 17, 17, 1, 0]),
    (Field::Of256, [5, 5, 9, 4, 0]),
    (Field::Of256, [4, 3, 3, 3, 1]),
    (Field::Of256, [5, 3, 4, 4, 1]),
    (Field::Of257, [2, 1, 1, 1, 0]),
    (Field::Of257, [3, 1, 1, 2, 0]),
    (Field::Of257, [5, 4, 15, 4, 0]),
    (Field::Of257, [4, 4, 7, 2, 0]),
    (Field::Of257, [2, 16, 16, 1, 0]),
    (Field::Of257, [5, 8, 17, 4, 0]),
    (Field::Of257, [4, 4, 4, 3, 1]),
    (Field::Of257, [5, 4, 6, 4, 1]),
];
const VOLUME: u32 = 0x0102_0304;

fn item(all: &mut Crosscheck, at: usize) {
    let (field, layout) = LAYOUTS[at / 2];
    let cabinet = Cabinet::named(field, layout);
    let image = image(all, &cabinet, 1 + at as u32 % 2);
    for byte in 0..image.len().min(HEADER + 4) {
        for value in 0..=255 {
            let mut changed = image.clone();
            changed[byte] = value;
            read(all, &cabinet, changed);
        }
    }
    for length in 0..image.len() + 2 {
        let mut cut = image.clone();
        cut.resize(length, 0);
        read(all, &cabinet, cut);
    }
}

/// An image by the second program.
fn image(all: &mut Crosscheck, cabinet: &Cabinet, state: u32) -> Vec<u8> {
    let mut inputs = write_image::example(&mut all.source, cabinet);
    inputs.values[2] = Value::Small(state);
    inputs.values[3] = Value::Small(VOLUME);
    (write_image::CALL.reference)(&inputs).bytes().to_vec()
}

fn read(all: &mut Crosscheck, cabinet: &Cabinet, image: Vec<u8>) {
    let mut inputs = cabinet.inputs([Value::Small(VOLUME), Value::Bytes(image)]);
    let call = match cabinet.field {
        Field::Of256 => &read_image::CALL,
        Field::Of257 => {
            let random = &mut all.source.random;
            let places = random.noise(cabinet.field, cabinet.numbers.layers);
            inputs.values.push(Value::Symbols(places));
            &copy_image::CALL
        }
    };
    all.run.compare(call, &inputs);
}
