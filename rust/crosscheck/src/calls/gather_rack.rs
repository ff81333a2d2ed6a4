//! Gathering a rack from what stands at its places.

use super::{library_layout, reference_layout, Call, Looks};
use crate::answer::Answer;
use crate::cabinet::Cabinet;
use crate::field::in_field;
use crate::images::{self, Kept, FOREIGN};
use crate::inputs::{Inputs, Kind, Value};
use crate::lent::Lent;
use crate::random::Random;
use crate::source::{Source, EITHER};

pub const CALL: Call = Call {
    name: "gather_rack",
    shape: &[
        Kind::Layout,
        Kind::Small,
        Kind::Small,
        Kind::List,
        Kind::Bytes,
        Kind::Symbols,
    ],
    errors: EITHER,
    grounds: &[1, 2, 3, 4, 9, 10, 11],
    looks: Looks::AtNone,
    example,
    library,
    reference,
};

/// A rack of which any trays are lost, with anything at their places; at times
/// there is something foreign at others too.
fn example(source: &mut Source, cabinet: &Cabinet) -> Inputs {
    let random = &mut source.random;
    let kept = Kept {
        cabinet: *cabinet,
        volume: images::volume(random),
    };
    let rack = random.below(cabinet.numbers.racks) as u32;
    let count = random.below(cabinet.numbers.size + 1);
    let lost = random.some_of(count, cabinet.trays_of(rack));
    let symbols = random.symbols(cabinet.field, cabinet.symbols());
    let all = kept.images(&symbols);
    let mut images = kept.rack(&all, rack).to_vec();
    let sound = source.random.one_in(3);
    for tray in cabinet.trays_of(rack) {
        if lost.contains(&tray) || !sound && source.random.one_in(3) {
            let kind = source.random.pick(&FOREIGN);
            let image = kept.foreign(source, tray, kind);
            kept.put(&mut images, cabinet.trays_of(rack)[0], tray, &image);
        }
    }
    let other = u32::from(source.random.one_in(24));
    let random = &mut source.random;
    inputs(random, cabinet, kept.volume ^ other, rack, lost, images)
}

/// The inputs over these images; what is written holds anything.
pub fn inputs(
    random: &mut Random,
    cabinet: &Cabinet,
    volume: u32,
    rack: u32,
    lost: Vec<u32>,
    images: Vec<u8>,
) -> Inputs {
    let out = random.noise(cabinet.field, cabinet.rack(0).len());
    cabinet.inputs([
        Value::Small(volume),
        Value::Small(rack),
        Value::List(lost),
        Value::Bytes(images),
        Value::Symbols(out),
    ])
}

fn library(inputs: &Inputs) -> Answer {
    let (layout, volume) = (library_layout(inputs), inputs.small(1));
    let rack = gesarumbo::Rack::new(inputs.small(2));
    let lost = Lent::list(inputs.list(3), gesarumbo::Tray::new);
    let images = Lent::bytes(inputs.bytes(4));
    in_field!(inputs.field, {
        let mut out = inputs.lent::<F>(5);
        let (from, to) = (images.part(), out.part_mut());
        let gathered = library::gather_rack(layout, volume, rack, lost.part(), from, to);
        Answer::new(gathered.map(|()| []))
            .written(inputs.field, &out)
            .read("the lost list", &lost)
            .read("the images", &images)
    })
}

fn reference(inputs: &Inputs) -> Answer {
    let (volume, rack) = (inputs.small(1), reference::Rack(inputs.small(2)));
    let list = inputs.list(3).iter();
    let lost: Vec<reference::Tray> = list.copied().map(reference::Tray).collect();
    let images = inputs.bytes(4);
    in_field!(inputs.field, {
        let (layout, out) = (reference_layout::<F>(inputs), inputs.given::<F>(5));
        let gathered = reference::gather_rack(layout, volume, rack, &lost, images, &out);
        Answer::filled(inputs, 5, gathered)
    })
}
