//! Recoveries in which none, one or two of the trays that are not erased are wrong:
//! with at most one and two checks left the codeword comes back and the tray is
//! named; with one check left it is refused with 8, and with none nothing is seen.
//! Two that are wrong in different layers, or with three checks left, are refused;
//! and of the second wrong symbols of one layer, with two checks left, as many name
//! another tray as there are others.

use super::Sweep;
use crate::answer::Answer;
use crate::cabinet::Cabinet;
use crate::calls::recover_correcting::{spoil_tray, CALL};
use crate::calls::{recover, store, test_kept};
use crate::crosscheck::Crosscheck;
use crate::damage::add_at;
use crate::field::{Field, Symbol};
use crate::source::Source;

/// An item is a layout.
pub const SWEEP: Sweep = Sweep {
    name: "wrong trays",
    items: |source| cabinets(source).count(),
    short_step: 20,
    item,
};

/// These are always among them: s = 2, 3 and 4, k no multiple of u, racks of one, of
/// many, E = 1.
const NAMED: [(Field, [u32; 5]); 10] = [
    (Field::Of256, [4, 3, 8, 3, 0]),
    (Field::Of256, [5, 3, 4, 3, 0]),
    (Field::Of256, [4, 1, 1, 3, 0]),
    (Field::Of256, [3, 17, 20, 2, 0]),
    (Field::Of256, [6, 3, 5, 4, 1]),
    (Field::Of257, [5, 4, 15, 4, 0]),
    (Field::Of257, [5, 2, 3, 3, 0]),
    (Field::Of257, [4, 1, 1, 3, 0]),
    (Field::Of257, [3, 16, 20, 2, 0]),
    (Field::Of257, [6, 4, 7, 4, 1]),
];
/// Of the others, one in so many, by E.
const FLAT_STEPS: [usize; 2] = [60, 300];
const LARGE_STEP: usize = 300;

/// All second wrong symbols are tried where there are at most so many trays and layers.
const FEW_TRAYS: usize = 12;
const FEW_LAYERS: usize = 16;

fn cabinets(source: &Source) -> impl Iterator<Item = Cabinet> + '_ {
    let named = NAMED.into_iter();
    let named = named.map(|(field, layout)| Cabinet::named(field, layout));
    let [plain, wary] = FLAT_STEPS;
    let small = source
        .small(0, plain)
        .chain(source.small(1, wary).step_by(4));
    named.chain(small).chain(source.large(0, LARGE_STEP))
}

fn item(all: &mut Crosscheck, at: usize) {
    let cabinet = cabinets(&all.source).nth(at).expect("an item is a layout");
    let stored = store::example(&mut all.source, &cabinet);
    let codeword = all.run.compare(&store::CALL, &stored).symbols().to_vec();
    let checks = cabinet.numbers.checks;
    for left in [checks, 3, 2, 1, 0] {
        if left <= checks {
            none_and_one_wrong(all, &cabinet, &codeword, left);
            two_wrong(all, &cabinet, &codeword, left);
        }
    }
    let few = cabinet.numbers.trays <= FEW_TRAYS && cabinet.numbers.layers <= FEW_LAYERS;
    if checks >= 2 && few {
        every_second_wrong_symbol(all, &cabinet, &codeword);
    }
}

/// Erased trays that leave so many checks, and the others.
fn erased(all: &mut Crosscheck, cabinet: &Cabinet, left: usize) -> (Vec<u32>, Vec<u32>) {
    let count = cabinet.numbers.checks - left;
    let erased = all.source.random.some_of(count, cabinet.tray_numbers());
    let mut others = cabinet.tray_numbers();
    others.retain(|tray| !erased.contains(tray));
    (erased, others)
}

fn none_and_one_wrong(all: &mut Crosscheck, cabinet: &Cabinet, codeword: &[Symbol], left: usize) {
    let (erased, others) = erased(all, cabinet, left);
    let none = cabinet.numbers.trays as u32;
    let answer = answered(all, cabinet, codeword.to_vec(), &erased);
    claim_named(all, &answer, none, left, codeword);
    let first_and_last = [others[0], others[others.len() - 1]];
    let any = all.source.random.pick(&others);
    for tray in first_and_last.into_iter().chain([any]) {
        let mut wrong = codeword.to_vec();
        spoil_tray(cabinet, &mut all.source.random, &mut wrong, tray);
        let answer = answered(all, cabinet, wrong, &erased);
        match left {
            0 => {
                let holds = answer.refusal == 0 && answer.numbers == [i128::from(none), 0];
                all.run.claim(holds, || format!("no check left: {answer}"));
            }
            1 => claim_refused(all, &answer),
            _ => claim_named(all, &answer, tray, left, codeword),
        }
    }
}

/// Two trays, each wrong in a layer of its own; and both in one layer.
fn two_wrong(all: &mut Crosscheck, cabinet: &Cabinet, codeword: &[Symbol], left: usize) {
    let (erased, others) = erased(all, cabinet, left);
    let layers = cabinet.numbers.layers;
    if others.len() < 2 || left < 2 {
        return;
    }
    let random = &mut all.source.random;
    let two = random.some_of(2, others);
    let apart = random.some_of(2, (0..layers as u32).collect());
    let layer = random.below(layers) as u32;
    let mut together = vec![];
    if apart.len() == 2 {
        together.push(apart);
    }
    if left >= 3 {
        together.push(vec![layer; 2]);
    }
    for layers in together {
        let mut wrong = codeword.to_vec();
        for (&tray, layer) in two.iter().zip(layers) {
            let at = cabinet.tray(tray).start + layer as usize;
            let added = all.source.random.nonzero(cabinet.field);
            add_at(cabinet, &mut wrong, at, added);
        }
        let answer = answered(all, cabinet, wrong, &erased);
        claim_refused(all, &answer);
    }
}

/// With two checks left, two trays that are wrong in one layer, the second by every
/// symbol there is: for each other tray there is one with which a change of it makes
/// a codeword.
fn every_second_wrong_symbol(all: &mut Crosscheck, cabinet: &Cabinet, codeword: &[Symbol]) {
    let (erased, others) = erased(all, cabinet, 2);
    let random = &mut all.source.random;
    let layer = random.below(cabinet.numbers.layers);
    let two = random.some_of(2, others.clone());
    let mut wrong = codeword.to_vec();
    let place = |tray: u32| cabinet.tray(tray).start + layer;
    add_at(
        cabinet,
        &mut wrong,
        place(two[0]),
        random.nonzero(cabinet.field),
    );
    let mut named = vec![];
    for added in 1..cabinet.field.symbols() as Symbol {
        let mut wrong = wrong.clone();
        add_at(cabinet, &mut wrong, place(two[1]), added);
        let answer = answered(all, cabinet, wrong, &erased);
        if answer.refusal == 0 {
            named.push(answer.numbers[0] as u32);
        } else {
            claim_refused(all, &answer);
        }
    }
    named.sort();
    let right: Vec<u32> = others
        .into_iter()
        .filter(|tray| !two.contains(tray))
        .collect();
    all.run.claim(named == right, || {
        format!("two wrong trays of {:?} name {named:?}", cabinet.layout)
    });
}

/// The answer of the recovery that corrects, with anything in the erased trays; the
/// test of the same agrees with a recovery.
fn answered(
    all: &mut Crosscheck,
    cabinet: &Cabinet,
    codeword: Vec<Symbol>,
    erased: &[u32],
) -> Answer {
    let random = &mut all.source.random;
    let inputs = recover::erase(cabinet, random, codeword, erased.to_vec());
    let answer = all.run.compare(&CALL, &inputs);
    if all.source.random.one_in(8) {
        let plain = all.run.compare(&recover::CALL, &inputs);
        let kept = all.run.compare(&test_kept::CALL, &inputs);
        let holds = kept.numbers[0] == if plain.refusal == 0 { 1 } else { 2 };
        all.run
            .claim(holds, || format!("test_kept {inputs}: {kept}, {plain}"));
    }
    answer
}

fn claim_named(all: &mut Crosscheck, answer: &Answer, tray: u32, left: usize, codeword: &[Symbol]) {
    let holds = answer.refusal == 0
        && answer.numbers == [i128::from(tray), left as i128]
        && answer.symbols() == codeword;
    all.run.claim(holds, || {
        format!("tray {tray}, {left} checks left: {answer}")
    });
}

fn claim_refused(all: &mut Crosscheck, answer: &Answer) {
    all.run
        .claim(answer.refusal == 8, || format!("to be refused: {answer}"));
}
