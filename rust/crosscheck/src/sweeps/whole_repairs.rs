//! Every tray of a codeword repaired from shares, alone or with others of its
//! rack, whole and in random pieces, and compared with the codeword.

use super::Sweep;
use crate::cabinet::Cabinet;
use crate::calls::repair::budget;
use crate::calls::{store, Call};
use crate::crosscheck::Crosscheck;
use crate::field::{Field, Symbol};
use crate::given::Given;
use crate::inputs::Inputs;
use crate::source::Source;

/// These are always among them, with so many lost trays.
const COUNTED: [(Field, [u32; 4], usize); 12] = [
    (Field::Of256, [4, 3, 6, 3], 3),
    (Field::Of256, [4, 3, 6, 3], 2),
    (Field::Of256, [4, 3, 6, 3], 1),
    (Field::Of256, [4, 3, 7, 3], 2),
    (Field::Of256, [4, 3, 7, 3], 1),
    (Field::Of256, [10, 3, 24, 9], 2),
    (Field::Of257, [4, 4, 8, 3], 4),
    (Field::Of257, [4, 4, 8, 3], 1),
    (Field::Of257, [4, 4, 9, 3], 3),
    (Field::Of257, [4, 4, 9, 3], 2),
    (Field::Of257, [3, 16, 18, 2], 9),
    (Field::Of257, [10, 2, 16, 9], 2),
];
/// These too, with any number of them.
const NAMED_256: [[u32; 4]; 13] = [
    [4, 3, 5, 2],
    [5, 3, 4, 3],
    [4, 3, 8, 3],
    [3, 1, 1, 2],
    [2, 17, 17, 1],
    [10, 3, 24, 9],
    [5, 5, 9, 4],
    [6, 1, 2, 5],
    [7, 3, 14, 6],
    [7, 5, 24, 6],
    [11, 1, 9, 10],
    [11, 3, 27, 10],
    [12, 1, 10, 11],
];
const NAMED_257: [[u32; 4]; 9] = [
    [5, 4, 15, 4],
    [4, 4, 7, 2],
    [5, 2, 3, 3],
    [2, 16, 16, 1],
    [5, 8, 17, 4],
    [6, 8, 16, 5],
    [10, 4, 32, 9],
    [7, 8, 40, 6],
    [12, 4, 40, 11],
];
/// Of the others, one in so many.
const FLAT_STEP: usize = 32;
const LARGE_STEP: usize = 180;

pub const SWEEP: Sweep = Sweep {
    name: "whole repairs",
    items: |source| cases(source).len(),
    short_step: 80,
    item,
};

/// The layouts, with a number of lost trays or any.
fn cases(source: &Source) -> Vec<(Cabinet, Option<usize>)> {
    let named = |field, [racks, size, dimension, helpers]: [u32; 4]| {
        Cabinet::named(field, [racks, size, dimension, helpers, 0])
    };
    let counted = COUNTED.map(|(field, layout, count)| (named(field, layout), Some(count)));
    let of_256 = NAMED_256.map(|layout| named(Field::Of256, layout));
    let of_257 = NAMED_257.map(|layout| named(Field::Of257, layout));
    let others = source
        .small(0, FLAT_STEP)
        .chain(source.large(0, LARGE_STEP));
    let of_any_count = of_256.into_iter().chain(of_257).chain(others);
    counted
        .into_iter()
        .chain(of_any_count.map(|cabinet| (cabinet, None)))
        .collect()
}

fn item(all: &mut Crosscheck, at: usize) {
    let (cabinet, count) = cases(&all.source)[at];
    let stored = store::example(&mut all.source, &cabinet);
    let codeword = all.run.compare(&store::CALL, &stored).symbols().to_vec();
    for tray in cabinet.tray_numbers() {
        let random = &mut all.source.random;
        let count = count.unwrap_or_else(|| cabinet.lost_count(random));
        let lost = cabinet.lost_with(random, tray, count);
        let share = |call: &Call, inputs: &Inputs| all.run.compare(call, inputs);
        let given = Given::of_codeword(random, &cabinet, &codeword, lost, share);
        let lost_symbols = |&lost: &u32| &codeword[cabinet.tray(lost)];
        let expected: Vec<Symbol> = given.lost.iter().flat_map(lost_symbols).copied().collect();
        for cut in [false, true] {
            let exact = repaired(all, &given, cut) == expected;
            all.run.claim(exact, || {
                format!("trays {:?} of {:?}, cut: {cut}", given.lost, cabinet.layout)
            });
        }
    }
}

/// The spare after a repair in one piece or in several.
fn repaired(all: &mut Crosscheck, given: &Given, cut: bool) -> Vec<Symbol> {
    let groups = given.cabinet.numbers.groups as u64;
    let mut spare = given.spare(&mut all.source.random);
    let mut first = 0;
    while first < groups {
        let random = &mut all.source.random;
        let budget = if cut {
            budget(random, groups - first)
        } else {
            groups
        };
        let (call, piece) = given.piece(random, &spare, first, budget);
        spare = all.run.compare(call, &piece).symbols().to_vec();
        first += budget.min(groups - first);
    }
    spare
}
