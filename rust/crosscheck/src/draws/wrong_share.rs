//! Repairs from a codeword's shares of which at most one is wrong, in any of its
//! symbols: the tray is exact, and exactly the rack whose share differs is named.

use super::Draw;
use crate::calls::{repair_correcting, Call};
use crate::crosscheck::Crosscheck;
use crate::given::Given;
use crate::inputs::Inputs;

pub const DRAW: Draw = Draw {
    name: "a wrong share",
    gate: 6_000,
    short: 60,
    case,
};

fn case(all: &mut Crosscheck) {
    let cabinet = all.source.cabinet(&[1]);
    let random = &mut all.source.random;
    let codeword = cabinet.codeword(random);
    let lost = cabinet.lost(random, 1);
    let tray = &codeword[cabinet.tray(lost[0])];
    let share = |call: &Call, inputs: &Inputs| (call.reference)(inputs);
    let true_ones = Given::of_codeword(random, &cabinet, &codeword, lost, share);
    let mut given = true_ones.clone();
    let (helper, groups) = (random.below(given.helpers.len()), cabinet.numbers.groups);
    let count = random.below(groups + 1);
    let wrong = random.some_of(count, (0..groups as u32).collect());
    given.spoil_share(random, helper, &wrong);
    let rack = if given.shares == true_ones.shares {
        cabinet.layout[0]
    } else {
        given.helpers[helper]
    };
    let spare = given.spare(random);
    let inputs = given.all_groups(random, &spare);
    let answer = all.run.compare(&repair_correcting::CALL, &inputs);
    let named = answer.numbers[0] == i128::from(rack);
    let holds = answer.refusal == 0 && named && answer.symbols() == tray;
    all.run.claim(holds, || {
        format!("repair_wrong {inputs}: {answer}, not rack {rack}")
    });
}
