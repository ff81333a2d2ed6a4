//! Reading a tray image of edition 2, whose symbols are copied to places lent.

use super::read_image::expected_and_image;
use super::{library_layout, reference_layout, Call, Looks};
use crate::answer::Answer;
use crate::cabinet::Cabinet;
use crate::inputs::{Inputs, Kind, Value};
use crate::lent::Lent;
use crate::source::{Source, EITHER};
use reference::image::HEADER;

pub const CALL: Call = Call {
    name: "read_image2",
    shape: &[Kind::Layout, Kind::Small, Kind::Bytes, Kind::Symbols],
    errors: EITHER,
    grounds: &[1, 2, 9, 10, 11],
    looks: Looks::AtNone,
    example,
    library,
    reference,
};

/// An image as it is read in the other field, at times with a symbol changed; and
/// as many places as the layout expected says, which hold anything.
fn example(source: &mut Source, cabinet: &Cabinet) -> Inputs {
    let (volume, mut image) = expected_and_image(source, cabinet);
    let random = &mut source.random;
    if random.one_in(4) && image.len() > HEADER {
        let at = HEADER + random.below(image.len() - HEADER);
        image[at] = random.pick(&[0, 1, 2, 255]);
    }
    let places = random.noise(cabinet.field, cabinet.numbers.layers);
    cabinet.inputs([
        Value::Small(volume),
        Value::Bytes(image),
        Value::Symbols(places),
    ])
}

fn library(inputs: &Inputs) -> Answer {
    let image = Lent::bytes(inputs.bytes(2));
    let mut places = inputs.lent::<reference::Field257>(3);
    let (layout, volume) = (library_layout(inputs), inputs.small(1));
    let tray = gesarumbo::field257::read_image(layout, volume, image.part(), places.part_mut());
    Answer::new(tray.map(|tray| [i128::from(tray.number())]))
        .written(inputs.field, &places)
        .read("the image", &image)
}

fn reference(inputs: &Inputs) -> Answer {
    type F = reference::Field257;
    let (layout, places) = (reference_layout::<F>(inputs), inputs.given::<F>(3));
    let read = reference::copy_image(layout, inputs.small(1), inputs.bytes(2), &places);
    let copied = read.as_ref().ok().map(|(_, symbols)| &symbols[..]);
    let tray = read.as_ref().map(|(tray, _)| [i128::from(tray.0)]);
    Answer::new(tray.map_err(|&refusal| refusal)).lent(inputs.field, inputs.symbols(3), copied)
}
