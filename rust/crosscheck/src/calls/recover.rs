//! Recovering erased trays.

use super::{library_layout, reference_layout, Call, Looks};
use crate::answer::Answer;
use crate::cabinet::Cabinet;
use crate::damage;
use crate::field::{in_field, Symbol};
use crate::inputs::{Inputs, Kind, Value};
use crate::lent::Lent;
use crate::random::Random;
use crate::source::{Source, EITHER};

pub const CALL: Call = Call {
    name: "recover",
    shape: &[Kind::Layout, Kind::Symbols, Kind::List],
    errors: EITHER,
    grounds: &[1, 2, 3, 4, 5, 8],
    looks: Looks::AtSome(looks),
    example,
    library,
    reference,
};

/// At the trays that are not listed.
pub fn looks(inputs: &Inputs, _: usize, place: usize) -> bool {
    let [racks, size, ..] = inputs.layout();
    let layers = inputs.symbols(1).len() / (racks * size) as usize;
    let tray = (place / layers) as u32;
    !inputs.list(2).contains(&tray)
}

/// A codeword with noise in its erased trays and, at times, damaged survivors.
pub fn example(source: &mut Source, cabinet: &Cabinet) -> Inputs {
    let random = &mut source.random;
    let count = how_many(cabinet, random);
    let erased = random.some_of(count, cabinet.tray_numbers());
    let mut codeword = cabinet.codeword(random);
    let layer = random.below(cabinet.numbers.layers);
    match random.below(6) {
        0 => damage::anywhere(cabinet, random, &mut codeword),
        1 => damage::seen_by_one(cabinet, random, &mut codeword, layer, &erased),
        2 => codeword = random.symbols(cabinet.field, cabinet.symbols()),
        _ => {}
    }
    erase(cabinet, random, codeword, erased)
}

/// The inputs over a codeword, with noise in its erased trays.
pub fn erase(
    cabinet: &Cabinet,
    random: &mut Random,
    mut codeword: Vec<Symbol>,
    erased: Vec<u32>,
) -> Inputs {
    for &tray in &erased {
        let noise = random.noise(cabinet.field, cabinet.numbers.layers);
        codeword[cabinet.tray(tray)].copy_from_slice(&noise);
    }
    cabinet.inputs([Value::Symbols(codeword), Value::List(erased)])
}

/// The erased trays as the second program takes them.
pub fn reference_trays(inputs: &Inputs) -> Vec<reference::Tray> {
    let list = inputs.list(2).iter();
    list.copied().map(reference::Tray).collect()
}

/// How many trays are erased: from none to r, these two and r − 1 more often.
fn how_many(cabinet: &Cabinet, random: &mut Random) -> usize {
    let most = cabinet.numbers.checks;
    match random.below(8) {
        0 => 0,
        1 => most - 1,
        2 | 3 => most,
        _ => random.below(most + 1),
    }
}

fn library(inputs: &Inputs) -> Answer {
    let erased = Lent::list(inputs.list(2), gesarumbo::Tray::new);
    let layout = library_layout(inputs);
    in_field!(inputs.field, {
        let mut codeword = inputs.lent::<F>(1);
        let recovered = library::recover(layout, codeword.part_mut(), erased.part());
        Answer::new(recovered.map(|()| []))
            .written(inputs.field, &codeword)
            .read("the erased list", &erased)
    })
}

fn reference(inputs: &Inputs) -> Answer {
    let erased = reference_trays(inputs);
    in_field!(inputs.field, {
        let layout = reference_layout::<F>(inputs);
        let filled = reference::recover(layout, &inputs.given::<F>(1), &erased);
        Answer::filled(inputs, 1, filled)
    })
}
