//! W7: reading while repairing.

mod common;

use common::cases::{ReadPart, RepairMany};
use common::{codeword, helper_sets, over_both_fields, Dice, Tried};
use reference::*;

over_both_fields! {
    parts_during_a_repair_in_pieces,
    ready_layers_need_not_be_the_first,
    empty_runs,
}

/// Every part that can be asked for, against the codeword, and a refusal for
/// every other.
fn every_part<F: Tried>(layout: Layout<F>, whole: &[F::Symbol], case: &ReadPart<F>) {
    let numbers = layout.numbers().unwrap();
    for tray in [case.lost.0, 0, numbers.trays as u32 - 1] {
        for first in 0..=numbers.layers {
            for end in first..=numbers.layers {
                let start = tray as usize * numbers.layers;
                let expected = &whole[start + first..start + end];
                let answer = case.asking(tray, first, end).run();
                if tray != case.lost.0 {
                    let part = answer.unwrap();
                    assert_eq!((part.source, part.offset), (Source::Store, start + first));
                    assert_eq!(part.symbols, expected);
                } else if (first..end).all(|layer| case.is_ready(layer)) {
                    let part = answer.unwrap();
                    assert_eq!((part.source, part.offset), (Source::Spare, first));
                    assert_eq!(part.symbols, expected);
                } else {
                    assert_eq!(answer, Err(Refusal::NotRepaired));
                }
            }
        }
    }
}

fn parts_during_a_repair_in_pieces<F: Tried>() {
    let mut dice = Dice::new(41);
    for shape in F::SHAPES {
        let layout = Layout::<F>::from(shape);
        let numbers = layout.numbers().unwrap();
        if numbers.layers > 16 {
            continue;
        }
        let whole = codeword(layout, 42);
        for lost in 0..numbers.trays {
            let host = lost / numbers.size;
            let sets = helper_sets(&numbers, host);
            let helpers = &sets[dice.below(sets.len())];
            let lost_tray = Tray(lost as u32);
            let mut piece = RepairMany::whole(layout, &whole, &[lost_tray], helpers, &mut dice);
            let mut store = whole.clone();
            store[lost * numbers.layers..][..numbers.layers]
                .copy_from_slice(&dice.symbols::<F>(numbers.layers));
            while piece.first < numbers.groups as u64 {
                let case = ReadPart {
                    layout,
                    codeword: store.clone(),
                    spare: piece.spare.clone(),
                    lost: lost_tray,
                    groups: piece.first,
                    asked: Asked {
                        tray: lost_tray,
                        first: 0,
                        end: 0,
                    },
                };
                every_part(layout, &whole, &case);
                piece.budget = 1 + dice.below(numbers.groups) as u64;
                let repaired = piece.run().unwrap();
                piece.first += repaired.groups;
                piece.spare = repaired.spare;
                // A number given may lag behind what is done.
                every_part(
                    layout,
                    &whole,
                    &ReadPart {
                        spare: piece.spare.clone(),
                        ..case
                    },
                );
            }
            let all_done = ReadPart::during_repair(layout, lost_tray, piece.first, &mut dice);
            assert!(all_done
                .asking(lost as u32, 0, numbers.layers)
                .run()
                .is_ok());
        }
    }
}

/// The layers that are ready begin with layer 0 and have no gap for the last
/// rack only.
fn ready_layers_need_not_be_the_first<F: Tried>() {
    let layout = Layout::<F>::from(F::ONE_LOST);
    let size = layout.size;
    let mut dice = Dice::new(43);
    let ready = |lost: u32, groups: u64, dice: &mut Dice| -> Vec<usize> {
        let case = ReadPart::during_repair(layout, Tray(lost), groups, dice);
        let is_ready = |&layer: &usize| case.asking(lost, layer, layer + 1).run().is_ok();
        (0..16).filter(is_ready).collect()
    };
    assert_eq!(ready(0, 2, &mut dice), [0, 1, 2, 3]);
    assert_eq!(ready(size, 3, &mut dice), [0, 1, 2, 3, 4, 6]);
    assert_eq!(ready(3 * size - 1, 3, &mut dice), [0, 1, 2, 4, 5, 6]);
    assert_eq!(ready(4 * size - 1, 3, &mut dice), [0, 1, 2, 8, 9, 10]);
    assert_eq!(ready(4 * size - 1, 0, &mut dice), [0; 0]);
}

fn empty_runs<F: Tried>() {
    let layout = Layout::<F>::from([3, 1, 1, 2]);
    let case = ReadPart::during_repair(layout, Tray(2), 0, &mut Dice::new(44));
    for first in 0..=8 {
        let of_lost = case.asking(2, first, first).run();
        assert_eq!(
            of_lost,
            Ok(Part {
                source: Source::Spare,
                offset: first,
                symbols: vec![]
            })
        );
        let of_other = case.asking(1, first, first).run();
        assert_eq!(
            of_other,
            Ok(Part {
                source: Source::Store,
                offset: 8 + first,
                symbols: vec![]
            })
        );
    }
    assert_eq!(case.asking(1, 9, 9).run(), Err(Refusal::Number));
    assert_eq!(case.asking(1, 4, 3).run(), Err(Refusal::Number));
}
