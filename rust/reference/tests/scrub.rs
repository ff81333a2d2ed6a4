//! W6: the walk against the test of the whole codeword.

mod common;

use common::{add_to_layer, codeword, over_both_fields, seen_by_one, symbol, Dice, Tried};
use reference::checks::Checks;
use reference::*;

over_both_fields! {
    walks_find_what_the_test_finds,
    a_walk_of_the_large_cabinet,
    a_damage_that_one_check_sees,
    bad_layers_are_those_with_a_broken_check,
    the_record_is_believed,
    other_layers_do_not_matter,
}

/// A codeword with so many symbols damaged.
fn damaged<F: Tried>(layout: Layout<F>, count: usize, dice: &mut Dice) -> Vec<F::Symbol> {
    let mut symbols = codeword(layout, u64::from(dice.byte()));
    for _ in 0..count {
        let at = dice.below(symbols.len());
        symbols[at] = F::add(symbols[at], dice.nonzero::<F>());
    }
    symbols
}

/// The bad layers below a layer, each found by testing the whole with all
/// other layers taken as zero, which is sound.
fn bad_below<F: Field>(layout: Layout<F>, symbols: &[F::Symbol], below: usize) -> Vec<u32> {
    let numbers = layout.numbers().unwrap();
    let alone = |layer: usize| -> Vec<F::Symbol> {
        let keep = |(at, &symbol): (usize, &F::Symbol)| {
            if at % numbers.layers == layer {
                symbol
            } else {
                F::ZERO
            }
        };
        symbols.iter().enumerate().map(keep).collect()
    };
    (0..below)
        .filter(|&layer| test(layout, &alone(layer)) != Ok(Tested::Sound))
        .map(|layer| layer as u32)
        .collect()
}

/// A walk in random steps, tried after each of them.
fn walk<F: Field>(layout: Layout<F>, symbols: &[F::Symbol], dice: &mut Dice) {
    let numbers = layout.numbers().unwrap();
    let all = bad_below(layout, symbols, numbers.layers);
    let mut record = scrub_reset(layout).unwrap();
    let mut report = Report::Unfinished;
    while report == Report::Unfinished {
        let budget = dice.below(numbers.layers / 2 + 2);
        let before = record;
        (report, record) = scrub(layout, symbols, record, budget as u64).unwrap();
        let left = numbers.layers - before.next as usize;
        assert_eq!(
            record.next as usize,
            before.next as usize + budget.min(left)
        );
        let bad: Vec<u32> = all
            .iter()
            .copied()
            .filter(|&layer| layer < record.next)
            .collect();
        assert_eq!(record.bad as usize, bad.len());
        let none = numbers.layers as u32;
        assert_eq!(record.first, bad.first().copied().unwrap_or(none));
        let finished = record.next == none;
        assert_eq!(report != Report::Unfinished, finished);
    }
    match test(layout, symbols).unwrap() {
        Tested::Sound => assert_eq!((report, record.bad), (Report::Sound, 0)),
        Tested::Bad { layer, .. } => assert_eq!((report, record.first), (Report::Bad, layer.0)),
    }
    // At the end nothing is left to look at, and the report stays.
    let again = scrub(layout, symbols, record, u64::MAX);
    assert_eq!(again, Ok((report, record)));
}

fn walks_find_what_the_test_finds<F: Tried>() {
    let mut dice = Dice::new(31);
    for shape in F::SHAPES {
        let layout = Layout::<F>::from(shape);
        for count in [0, 1, 2, 5, 20] {
            let symbols = damaged(layout, count, &mut dice);
            walk(layout, &symbols, &mut dice);
        }
    }
    let single = Layout::<F>::from(F::LARGE_RACKS[0]);
    walk(single, &damaged(single, 0, &mut dice), &mut dice);
    walk(single, &damaged(single, 1, &mut dice), &mut dice);
}

/// In a cabinet of 1,024 layers too, where the whole takes longer.
fn a_walk_of_the_large_cabinet<F: Tried>() {
    let mut dice = Dice::new(32);
    let layout = Layout::<F>::from(F::LARGE_CABINET);
    let symbols = damaged(layout, 3, &mut dice);
    let record = scrub_reset(layout).unwrap();
    let (report, at_once) = scrub(layout, &symbols, record, u64::MAX).unwrap();
    assert_eq!(report, Report::Bad);
    let mut in_pieces = record;
    while in_pieces.next < 1024 {
        let budget = dice.below(400) as u64;
        (_, in_pieces) = scrub(layout, &symbols, in_pieces, budget).unwrap();
    }
    assert_eq!(in_pieces, at_once);
    let first = test(layout, &symbols).unwrap();
    assert!(matches!(first, Tested::Bad { layer, .. } if layer.0 == at_once.first));
}

/// Each layer is looked at by all r checks.
fn a_damage_that_one_check_sees<F: Tried>() {
    for shape in F::SHAPES {
        let layout = Layout::<F>::from(shape);
        let numbers = layout.numbers().unwrap();
        let checks = Checks::<F>::new(numbers);
        let whole = codeword(layout, 36);
        for seen in 0..numbers.checks {
            let layer = seen % numbers.layers;
            let mut symbols = whole.clone();
            let damage = seen_by_one(&checks, numbers.checks, layer, seen);
            add_to_layer::<F>(&numbers, &mut symbols, layer, &damage);
            let found = bad_layers::<F>(numbers, &symbols, 0..numbers.layers);
            assert_eq!(found, [layer]);
        }
    }
}

fn bad_layers_are_those_with_a_broken_check<F: Tried>() {
    let layout = Layout::<F>::from(F::SHAPES[4]);
    let numbers = layout.numbers().unwrap();
    let mut symbols = codeword(layout, 33);
    for layer in [3, 4, 15] {
        let at = layer % 12 * 16 + layer;
        symbols[at] = F::add(symbols[at], symbol::<F>(0x80));
    }
    assert_eq!(bad_layers::<F>(numbers, &symbols, 0..16), [3, 4, 15]);
    assert_eq!(bad_layers::<F>(numbers, &symbols, 4..15), [4]);
    assert_eq!(bad_layers::<F>(numbers, &symbols, 5..5), [0; 0]);
}

/// The report is about the record: one that says sound at L is sound, and one
/// that counts more bad layers than can be is none of W6's refusals.
fn the_record_is_believed<F: Tried>() {
    let layout = Layout::<F>::from([3, 1, 1, 2]);
    let bad = [1, 2, 3, 4, 5, 6, 7, 8].map(symbol::<F>).repeat(3);
    let over = ScrubRecord {
        next: 8,
        bad: 0,
        first: 8,
    };
    assert_eq!(scrub(layout, &bad, over, 5), Ok((Report::Sound, over)));
    let impossible = ScrubRecord {
        next: 2,
        bad: 2,
        first: 1,
    };
    let unmoved = scrub(layout, &bad, impossible, 0);
    assert_eq!(unmoved, Ok((Report::Unfinished, impossible)));
    let reset = scrub_reset(layout).unwrap();
    let unmoved = scrub(layout, &bad, reset, 0);
    assert_eq!(unmoved, Ok((Report::Unfinished, reset)));
}

/// Only the layers of a step are looked at.
fn other_layers_do_not_matter<F: Tried>() {
    let layout = Layout::<F>::from(F::ONE_LOST);
    let mut dice = Dice::new(34);
    let symbols = codeword(layout, 35);
    let record = ScrubRecord {
        next: 5,
        bad: 0,
        first: 16,
    };
    let mut elsewhere = dice.symbols::<F>(symbols.len());
    for tray in 0..4 * layout.size as usize {
        for layer in 5..9 {
            elsewhere[tray * 16 + layer] = symbols[tray * 16 + layer];
        }
    }
    let after = scrub(layout, &elsewhere, record, 4).unwrap();
    assert_eq!(after, scrub(layout, &symbols, record, 4).unwrap());
    assert_eq!((after.1.next, after.1.bad), (9, 0));
}
