//! Recovering erased trays though one of the others may be wrong.

use super::{library_layout, recover, reference_layout, Call, Looks};
use crate::answer::Answer;
use crate::cabinet::Cabinet;
use crate::damage;
use crate::field::{in_field, Symbol};
use crate::inputs::{Inputs, Kind};
use crate::lent::Lent;
use crate::random::Random;
use crate::source::{Source, EITHER};

pub const CALL: Call = Call {
    name: "recover_correcting",
    shape: &[Kind::Layout, Kind::Symbols, Kind::List],
    errors: EITHER,
    grounds: &[1, 2, 3, 4, 5, 8],
    looks: Looks::AtSome(recover::looks),
    example,
    library,
    reference,
};

/// A codeword with noise in its erased trays, in which none, one or two of the
/// others are wrong in one layer, in some or in all; or as for a recovery.
fn example(source: &mut Source, cabinet: &Cabinet) -> Inputs {
    let random = &mut source.random;
    if random.one_in(4) {
        return recover::example(source, cabinet);
    }
    let most = cabinet.numbers.checks;
    let count = match random.below(4) {
        0 => most.saturating_sub(2),
        1 => 0,
        _ => random.below(most + 1),
    };
    let erased = random.some_of(count, cabinet.tray_numbers());
    let mut codeword = cabinet.codeword(random);
    let wrong = random.pick(&[0, 1, 1, 1, 1, 2]);
    let mut others = cabinet.tray_numbers();
    others.retain(|tray| !erased.contains(tray));
    for tray in random.some_of(wrong, others) {
        spoil_tray(cabinet, random, &mut codeword, tray);
    }
    recover::erase(cabinet, random, codeword, erased)
}

/// Makes a tray wrong in one layer, in some or in all.
pub fn spoil_tray(cabinet: &Cabinet, random: &mut Random, codeword: &mut [Symbol], tray: u32) {
    let layers = cabinet.numbers.layers;
    let some = 1 + random.below(layers);
    let count = random.pick(&[1, layers, some]);
    for layer in random.some_of(count, (0..layers as u32).collect()) {
        let at = cabinet.tray(tray).start + layer as usize;
        damage::add_at(cabinet, codeword, at, random.nonzero(cabinet.field));
    }
}

fn library(inputs: &Inputs) -> Answer {
    let erased = Lent::list(inputs.list(2), gesarumbo::Tray::new);
    let layout = library_layout(inputs);
    let trays = layout.racks.wrapping_mul(layout.size);
    let numbers = |done: gesarumbo::Recovered| {
        let tray = done.tray.map_or(trays, gesarumbo::Tray::number);
        [i128::from(tray), i128::from(done.checks)]
    };
    in_field!(inputs.field, {
        let mut codeword = inputs.lent::<F>(1);
        let recovered = library::recover_correcting(layout, codeword.part_mut(), erased.part());
        Answer::new(recovered.map(numbers))
            .written(inputs.field, &codeword)
            .read("the erased list", &erased)
    })
}

fn reference(inputs: &Inputs) -> Answer {
    let erased = recover::reference_trays(inputs);
    in_field!(inputs.field, {
        let layout = reference_layout::<F>(inputs);
        let recovered = reference::recover_correcting(layout, &inputs.given::<F>(1), &erased);
        let after = recovered.as_ref().ok().map(|done| done.codeword.clone());
        let numbers = recovered.map(|done| [i128::from(done.tray.0), i128::from(done.checks)]);
        Answer::new(numbers).lent(inputs.field, inputs.symbols(1), after.as_deref())
    })
}
