//! Testing finds the first bad layer and the least check broken there, for
//! every check of every small layout with several layers and of some others.

use super::Sweep;
use crate::cabinet::Cabinet;
use crate::calls::test;
use crate::crosscheck::Crosscheck;
use crate::damage::{add_at, least_broken};
use crate::source::Source;

/// Of the others, one in so many.
const FLAT_STEP: usize = 2;
const WARY_STEP: usize = 16;
const LARGE_STEP: usize = 120;

pub const SWEEP: Sweep = Sweep {
    name: "least check",
    items: |source| cabinets(source).count(),
    short_step: 120,
    item,
};

fn cabinets(source: &Source) -> impl Iterator<Item = Cabinet> + '_ {
    let plain = source
        .small(0, FLAT_STEP)
        .chain(source.large(0, LARGE_STEP));
    let wary = source
        .small(1, WARY_STEP)
        .chain(source.large(1, LARGE_STEP));
    plain.chain(wary)
}

fn item(all: &mut Crosscheck, at: usize) {
    let cabinet = cabinets(&all.source).nth(at).expect("an item is a layout");
    let sound = cabinet.codeword(&mut all.source.random);
    for check in 0..cabinet.numbers.checks {
        let random = &mut all.source.random;
        let layer = random.below(cabinet.numbers.layers);
        let mut codeword = sound.clone();
        least_broken(&cabinet, random, &mut codeword, layer, check);
        // A later layer that breaks a lower check must not be reported.
        if layer + 1 < cabinet.numbers.layers {
            let later = layer + 1 + random.below(cabinet.numbers.layers - layer - 1);
            add_at(
                &cabinet,
                &mut codeword,
                later,
                random.nonzero(cabinet.field),
            );
        }
        let answer = all
            .run
            .compare(&test::CALL, &test::inputs(&cabinet, codeword));
        let bad = test::bad(layer as u32, check as u32);
        all.run.claim(answer.numbers == bad, || {
            format!("layer {layer}, check {check}: {answer}")
        });
    }
}
