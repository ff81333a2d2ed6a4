//! Writing a tray image.

use super::{library_layout, reference_layout, Call, Looks};
use crate::answer::Answer;
use crate::cabinet::Cabinet;
use crate::field::in_field;
use crate::inputs::{Inputs, Kind, Value};
use crate::lent::Lent;
use crate::random::Random;
use crate::source::{Source, EITHER};
use reference::image::HEADER;

pub const CALL: Call = Call {
    name: "write_image",
    shape: &[
        Kind::Layout,
        Kind::Small,
        Kind::Small,
        Kind::Small,
        Kind::Symbols,
        Kind::Bytes,
    ],
    errors: EITHER,
    grounds: &[1, 2, 3],
    looks: Looks::AtAll,
    example,
    library,
    reference,
};

pub fn example(source: &mut Source, cabinet: &Cabinet) -> Inputs {
    let random = &mut source.random;
    let numbers = &cabinet.numbers;
    let length = HEADER + cabinet.field.bytes() * numbers.layers;
    cabinet.inputs([
        Value::Small(random.below(numbers.trays) as u32),
        Value::Small(if random.one_in(4) { 2 } else { 1 }),
        Value::Small(volume(random)),
        Value::Symbols(random.symbols(cabinet.field, numbers.layers)),
        Value::Bytes(random.bytes(length)),
    ])
}

fn volume(random: &mut Random) -> u32 {
    let any = random.word() as u32;
    random.pick(&[0, 1, 7, u32::MAX, any, any])
}

fn library(inputs: &Inputs) -> Answer {
    let layout = library_layout(inputs);
    let tray = gesarumbo::Tray::new(inputs.small(1));
    let [state, volume] = [2, 3].map(|at| inputs.small(at));
    let mut image = Lent::bytes(inputs.bytes(5));
    in_field!(inputs.field, {
        let symbols = inputs.lent::<F>(4);
        let (from, to) = (symbols.part(), image.part_mut());
        let written = library::write_image(layout, tray, state, volume, from, to);
        Answer::new(written.map(|()| []))
            .written_bytes(&image)
            .read("the symbols", &symbols)
    })
}

fn reference(inputs: &Inputs) -> Answer {
    let tray = reference::Tray(inputs.small(1));
    let [state, volume] = [2, 3].map(|at| inputs.small(at));
    let image = inputs.bytes(5);
    let written = in_field!(inputs.field, {
        let layout = reference_layout::<F>(inputs);
        reference::write_image(layout, tray, state, volume, &inputs.given::<F>(4), image)
    });
    Answer::filled_bytes(image, written)
}
