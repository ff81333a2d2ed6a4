//! Gathering a codeword from what stands at the places of a cabinet.

use super::{library_layout, reference_layout, Call, Looks};
use crate::answer::Answer;
use crate::cabinet::Cabinet;
use crate::field::{in_field, Symbol};
use crate::images::{self, Kept, FOREIGN};
use crate::inputs::{Inputs, Kind, Value};
use crate::lent::Lent;
use crate::random::Random;
use crate::source::{Source, EITHER};

pub const CALL: Call = Call {
    name: "gather",
    shape: &[
        Kind::Layout,
        Kind::Small,
        Kind::Bytes,
        Kind::Symbols,
        Kind::List,
    ],
    errors: EITHER,
    grounds: &[1, 2],
    looks: Looks::AtNone,
    example,
    library,
    reference,
};

fn example(source: &mut Source, cabinet: &Cabinet) -> Inputs {
    let (volume, images) = drawn(source, cabinet);
    inputs(&mut source.random, cabinet, volume, images)
}

/// The inputs over these images; what is written holds anything.
pub fn inputs(random: &mut Random, cabinet: &Cabinet, volume: u32, images: Vec<u8>) -> Inputs {
    let codeword: Vec<Symbol> = random.noise(cabinet.field, cabinet.symbols());
    let missing = (0..cabinet.numbers.trays).map(|_| number(random)).collect();
    cabinet.inputs([
        Value::Small(volume),
        Value::Bytes(images),
        Value::Symbols(codeword),
        Value::List(missing),
    ])
}

/// A number that may stand in a list.
fn number(random: &mut Random) -> u32 {
    let any = random.word() as u32;
    random.pick(&[0, 1, 99, any])
}

/// The volume expected, and what stands at all places: live images, of which none,
/// some or most are replaced; at times all are of another volume.
pub fn drawn(source: &mut Source, cabinet: &Cabinet) -> (u32, Vec<u8>) {
    let kept = Kept {
        cabinet: *cabinet,
        volume: images::volume(&mut source.random),
    };
    let symbols = source.random.symbols(cabinet.field, cabinet.symbols());
    let mut images = kept.images(&symbols);
    let one_in = source.random.pick(&[1, 2, 4, 12, 60]);
    for tray in cabinet.tray_numbers() {
        if source.random.one_in(one_in) {
            let kind = source.random.pick(&FOREIGN);
            let image = kept.foreign(source, tray, kind);
            kept.put(&mut images, 0, tray, &image);
        }
    }
    let other = source.random.pick(&[0, kept.volume ^ 1]);
    let volume = match source.random.one_in(16) {
        true => other,
        false => kept.volume,
    };
    (volume, images)
}

fn library(inputs: &Inputs) -> Answer {
    let (layout, volume) = (library_layout(inputs), inputs.small(1));
    let images = Lent::bytes(inputs.bytes(2));
    let mut missing = Lent::list(inputs.list(4), gesarumbo::Tray::new);
    in_field!(inputs.field, {
        let mut codeword = inputs.lent::<F>(3);
        let (from, to) = (images.part(), codeword.part_mut());
        let count = library::gather(layout, volume, from, to, missing.part_mut());
        Answer::new(count.map(|count| [count as i128]))
            .written(inputs.field, &codeword)
            .written_list(&missing, gesarumbo::Tray::number)
            .read("the images", &images)
    })
}

fn reference(inputs: &Inputs) -> Answer {
    let (volume, images) = (inputs.small(1), inputs.bytes(2));
    let list = inputs.list(4).iter();
    let missing: Vec<reference::Tray> = list.copied().map(reference::Tray).collect();
    in_field!(inputs.field, {
        let layout = reference_layout::<F>(inputs);
        let codeword = inputs.given::<F>(3);
        let gathered = reference::gather(layout, volume, images, &codeword, &missing);
        let (codeword, missing) = match &gathered {
            Ok(done) => {
                let trays = done.missing.iter().map(|tray| tray.0);
                (Some(done.codeword.clone()), Some(trays.collect::<Vec<_>>()))
            }
            Err(_) => (None, None),
        };
        Answer::new(gathered.map(|done| [i128::from(done.count)]))
            .lent(inputs.field, inputs.symbols(3), codeword.as_deref())
            .lent_list(inputs.list(4), missing.as_deref())
    })
}
