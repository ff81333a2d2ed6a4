//! Reading a tray image of edition 1, whose symbols are handed out as a part of it.

use super::{library_layout, reference_layout, write_image, Call, Looks};
use crate::answer::{Answer, Ground};
use crate::cabinet::Cabinet;
use crate::field::Field;
use crate::inputs::{Inputs, Kind, Value};
use crate::lent::Lent;
use crate::source::{Source, EITHER};

pub const CALL: Call = Call {
    name: "read_image",
    shape: &[Kind::Layout, Kind::Small, Kind::Bytes],
    errors: EITHER,
    grounds: &[1, 9, 10, 11],
    looks: Looks::AtNone,
    example: |source, cabinet| {
        let (volume, image) = expected_and_image(source, cabinet);
        cabinet.inputs([Value::Small(volume), Value::Bytes(image)])
    },
    library,
    reference,
};

/// The volume expected, and an image, live or not, of the layout expected or
/// another, of that volume or another, and at times of the other field.
pub fn expected_and_image(source: &mut Source, cabinet: &Cabinet) -> (u32, Vec<u8>) {
    let own = match source.random.below(16) {
        0 => source.cabinet(EITHER),
        1..4 => source.cabinet_of(cabinet.field, EITHER),
        4 => with_other_errors(cabinet),
        _ => *cabinet,
    };
    let written = write_image::example(source, &own);
    let volume = written.small(3) ^ u32::from(source.random.one_in(4));
    let image = (write_image::CALL.reference)(&written).bytes().to_vec();
    (volume, image)
}

/// The layout that differs from this one in E alone, where that is admissible.
fn with_other_errors(cabinet: &Cabinet) -> Cabinet {
    let [racks, size, dimension, helpers, errors] = cabinet.layout;
    let other = [racks, size, dimension, helpers, 1 - errors];
    Cabinet::new(cabinet.field, other).unwrap_or(*cabinet)
}

/// The tray, and the part's place and symbols in the image.
fn answer<R: Ground>(image: &[u8], read: Result<(u32, &[u8]), R>) -> Answer {
    let part = read.as_ref().map_or(&[][..], |(_, part)| part);
    let offset = (part.as_ptr() as usize).wrapping_sub(image.as_ptr() as usize);
    let numbers =
        |(tray, part): (u32, &[u8])| [i128::from(tray), offset as i128, part.len() as i128];
    Answer::new(read.map(numbers)).part(Field::Of256, part)
}

fn library(inputs: &Inputs) -> Answer {
    let image = Lent::bytes(inputs.bytes(2));
    let read = gesarumbo::read_image(library_layout(inputs), inputs.small(1), image.part());
    answer(
        image.part(),
        read.map(|read| (read.tray.number(), read.symbols)),
    )
    .read("the image", &image)
}

fn reference(inputs: &Inputs) -> Answer {
    let image = inputs.bytes(2);
    let read = reference::read_image(reference_layout(inputs), inputs.small(1), image);
    answer(image, read.map(|read| (read.tray.0, read.symbols)))
}
