//! Two pieces that both do a group, alike in its share symbols and in the sound
//! host symbols of its layers and in nothing else, write the same there.

use super::Draw;
use crate::crosscheck::Crosscheck;
use crate::field::Symbol;
use crate::given::Given;

pub const DRAW: Draw = Draw {
    name: "same group",
    gate: 5_000,
    short: 60,
    case,
};

fn case(all: &mut Crosscheck) {
    let cabinet = all.source.cabinet(&[0]);
    let random = &mut all.source.random;
    let count = cabinet.lost_count(random);
    let lost = cabinet.lost(random, count);
    let one = Given::draw(random, &cabinet, lost);
    let group = random.below(cabinet.numbers.groups);
    let mut other = Given {
        shares: random.symbols(cabinet.field, one.shares.len()),
        host: random.symbols(cabinet.field, one.host.len()),
        ..one.clone()
    };
    for at in (group..one.shares.len()).step_by(cabinet.numbers.groups) {
        other.shares[at] = one.shares[at];
    }
    for at in (0..one.host.len()).filter(|&at| one.group(at) == group) {
        other.host[at] = one.host[at];
    }
    let [by_one, by_other] = [&one, &other].map(|given| written(all, given, group));
    let mut of_group = (0..by_one.len()).filter(|&at| one.group(at) == group);
    let same = of_group.all(|at| by_one[at] == by_other[at]);
    all.run
        .claim(same, || format!("group {group} of {cabinet:?} differs"));
}

/// The spare after a piece that does the group among others.
fn written(all: &mut Crosscheck, given: &Given, group: usize) -> Vec<Symbol> {
    let random = &mut all.source.random;
    let first = random.below(group + 1);
    let budget = group - first + 1 + random.below(given.cabinet.numbers.groups);
    let spare = given.spare(random);
    let (call, piece) = given.piece(random, &spare, first as u64, budget as u64);
    all.run.compare(call, &piece).symbols().to_vec()
}
