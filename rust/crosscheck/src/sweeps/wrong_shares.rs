//! Repairs from shares of which none, one or two are wrong, over layouts with E = 1:
//! with at most one the tray is exact and the rack is named; two that are wrong in
//! different groups are refused with 14; and of the second wrong symbols of one
//! group as many name another rack as there are other helpers.

use super::Sweep;
use crate::answer::Answer;
use crate::cabinet::Cabinet;
use crate::calls::{repair_correcting, store, Call};
use crate::crosscheck::Crosscheck;
use crate::field::{Field, Symbol};
use crate::given::Given;
use crate::inputs::Inputs;
use crate::source::Source;

/// An item is a layout.
pub const SWEEP: Sweep = Sweep {
    name: "wrong shares",
    items: |source| cabinets(source).count(),
    short_step: 60,
    item,
};

/// These are always among them: s = 2 and 3, racks that neither host nor help, many
/// racks, many layers.
const NAMED: [(Field, [u32; 5]); 8] = [
    (Field::Of256, [6, 3, 5, 4, 1]),
    (Field::Of256, [6, 3, 5, 5, 1]),
    (Field::Of256, [7, 1, 2, 6, 1]),
    (Field::Of256, [12, 1, 8, 11, 1]),
    (Field::Of257, [6, 4, 7, 4, 1]),
    (Field::Of257, [6, 4, 7, 5, 1]),
    (Field::Of257, [7, 2, 4, 6, 1]),
    (Field::Of257, [12, 1, 8, 11, 1]),
];
/// Of the others, one in so many.
const FLAT_STEP: usize = 5;
const LARGE_STEP: usize = 60;

/// All second wrong symbols are tried where a group has at most so many checks, and a
/// tray so many layers.
const FEW_CHECKS: usize = 6;
const FEW_LAYERS: usize = 64;

fn cabinets(source: &Source) -> impl Iterator<Item = Cabinet> + '_ {
    let named = NAMED.into_iter();
    let named = named.map(|(field, layout)| Cabinet::named(field, layout));
    let others = source
        .small(1, FLAT_STEP)
        .chain(source.large(1, LARGE_STEP));
    named.chain(others)
}

fn item(all: &mut Crosscheck, at: usize) {
    let cabinet = cabinets(&all.source).nth(at).expect("an item is a layout");
    let stored = store::example(&mut all.source, &cabinet);
    let codeword = all.run.compare(&store::CALL, &stored).symbols().to_vec();
    let random = &mut all.source.random;
    let lost = cabinet.lost(random, 1);
    let tray = &codeword[cabinet.tray(lost[0])];
    let share = |call: &Call, inputs: &Inputs| all.run.compare(call, inputs);
    let given = Given::of_codeword(random, &cabinet, &codeword, lost, share);
    named(all, &given, cabinet.layout[0], tray);
    one_wrong(all, &given, tray);
    two_wrong(all, &given);
    let numbers = &cabinet.numbers;
    if numbers.rack_checks <= FEW_CHECKS && numbers.layers <= FEW_LAYERS {
        every_second_wrong_symbol(all, &given);
    }
}

/// Some helpers in turn: one symbol of the share is wrong, and all of them are.
fn one_wrong(all: &mut Crosscheck, given: &Given, tray: &[Symbol]) {
    let groups: Vec<u32> = (0..given.cabinet.numbers.groups as u32).collect();
    let places = (0..given.helpers.len() as u32).collect();
    for place in all.source.random.some_of(3, places) {
        let one = [all.source.random.pick(&groups)];
        for groups in [&one[..], &groups] {
            let mut wrong = given.clone();
            wrong.spoil_share(&mut all.source.random, place as usize, groups);
            named(all, &wrong, given.helpers[place as usize], tray);
        }
    }
}

/// Two helpers, each wrong in a group of its own.
fn two_wrong(all: &mut Crosscheck, given: &Given) {
    let (helpers, groups) = (given.helpers.len(), given.cabinet.numbers.groups);
    if groups < 2 {
        return;
    }
    let random = &mut all.source.random;
    let [helpers, groups] = [helpers, groups].map(|of| random.some_of(2, (0..of as u32).collect()));
    let mut wrong = given.clone();
    for (helper, group) in helpers.into_iter().zip(groups) {
        wrong.spoil_share(random, helper as usize, &[group]);
    }
    let answer = answered(all, &wrong);
    all.run.claim(answer.refusal == 14, || {
        format!("two wrong shares of {wrong:?}: {answer}")
    });
}

/// Two helpers that are wrong in one group, the second by every symbol there is: for
/// each other helper there is one with which a change of its share meets the checks.
fn every_second_wrong_symbol(all: &mut Crosscheck, given: &Given) {
    let numbers = given.cabinet.numbers;
    let random = &mut all.source.random;
    let group = random.below(numbers.groups);
    let two = random.some_of(2, (0..numbers.helpers as u32).collect());
    let mut wrong = given.clone();
    wrong.spoil_share(random, two[0] as usize, &[group as u32]);
    let at = two[1] as usize * numbers.groups + group;
    let field = given.cabinet.field;
    let mut others = vec![];
    for added in 1..field.symbols() as Symbol {
        wrong.shares[at] = field.add(given.shares[at], added);
        let answer = answered(all, &wrong);
        if answer.refusal == 0 {
            others.push(answer.numbers[0] as u32);
        } else {
            all.run.claim(answer.refusal == 14, || {
                format!("two wrong shares of {wrong:?}: {answer}")
            });
        }
    }
    others.sort();
    let places = given.helpers.iter().enumerate();
    let right = places.filter(|(place, _)| !two.contains(&(*place as u32)));
    let expected: Vec<u32> = right.map(|(_, &rack)| rack).collect();
    all.run.claim(others == expected, || {
        format!("two wrong shares of {given:?} name {others:?}")
    });
}

/// Claims that this rack is named, B for none, and that the tray comes back.
fn named(all: &mut Crosscheck, given: &Given, rack: u32, tray: &[Symbol]) {
    let answer = answered(all, given);
    let holds = answer.refusal == 0
        && answer.numbers[0] == i128::from(rack)
        && answer.numbers[1] == given.symbols() * given.cabinet.numbers.groups as i128
        && answer.symbols() == tray;
    all.run
        .claim(holds, || format!("rack {rack} of {given:?}: {answer}"));
}

fn answered(all: &mut Crosscheck, given: &Given) -> Answer {
    let random = &mut all.source.random;
    let spare = given.spare(random);
    let inputs = given.all_groups(random, &spare);
    all.run.compare(&repair_correcting::CALL, &inputs)
}
