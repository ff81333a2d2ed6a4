//! W1: e lost trays of one rack.

mod common;

use common::cases::RepairMany;
use common::{codeword, helper_sets, lost_lists, over_both_fields, rack_of, tray_of};
use common::{Dice, Tried};
use reference::checks::Checks;
use reference::elimination::solve;
use reference::share::weight;
use reference::*;

over_both_fields! {
    every_choice_of_lost_trays_and_helpers,
    large_racks,
    two_trays_of_the_large_cabinet,
    any_shares_are_answered_by_the_checks,
    weights_are_what_places_differ_by,
    pieces_make_the_whole,
    a_group_hangs_on_its_own_symbols,
    with_a_whole_rack_lost_its_symbols_do_not_matter,
}

/// The lost trays of a codeword as the spare must hold them.
fn lost_of<F: Field>(layout: Layout<F>, whole: &[F::Symbol], lost: &[Tray]) -> Vec<F::Symbol> {
    let numbers = layout.numbers().unwrap();
    let of_tray = |&tray: &Tray| tray_of(&numbers, whole, tray);
    lost.iter().flat_map(of_tray).collect()
}

#[test]
fn the_most_lost_trays() {
    let most = |shape| {
        Layout::<Field256>::from(shape)
            .numbers()
            .unwrap()
            .most_lost()
    };
    assert_eq!(Field256::SHAPES_OF_MANY.map(most), [3, 2, 2, 3, 1]);
    assert_eq!(most([4, 3, 8, 3]), 1);
    assert_eq!(most([7, 5, 24, 6]), 1);
    assert_eq!(most([10, 3, 24, 9]), 3);
    assert_eq!(most([2, 17, 17, 1]), 17);
    let most = |shape| {
        Layout::<Field257>::from(shape)
            .numbers()
            .unwrap()
            .most_lost()
    };
    assert_eq!(Field257::SHAPES_OF_MANY.map(most), [4, 3, 2, 3, 1]);
    assert_eq!(most([5, 4, 15, 4]), 1);
    assert_eq!(most([2, 16, 16, 1]), 16);
}

fn every_choice_of_lost_trays_and_helpers<F: Tried>() {
    let mut dice = Dice::new(51);
    for shape in F::SHAPES.into_iter().chain(F::SHAPES_OF_MANY) {
        let layout = Layout::<F>::from(shape);
        let numbers = layout.numbers().unwrap();
        let whole = codeword(layout, 52);
        for host in 0..numbers.racks {
            for count in 1..=numbers.most_lost() {
                for lost in lost_lists(&numbers, host, count) {
                    for helpers in helper_sets(&numbers, host) {
                        let case = RepairMany::whole(layout, &whole, &lost, &helpers, &mut dice);
                        let repaired = case.run().unwrap();
                        assert_eq!(repaired.spare, lost_of(layout, &whole, &lost));
                        let crossed = count * numbers.helpers * numbers.groups;
                        assert_eq!(repaired.crossed, crossed as u64);
                        assert_eq!(repaired.remaining, 0);
                    }
                }
            }
        }
    }
}

/// Whole racks, and others, of many trays.
fn large_racks<F: Tried>() {
    let mut dice = Dice::new(53);
    for shape in F::LARGE_RACKS {
        let layout = Layout::<F>::from(shape);
        let numbers = layout.numbers().unwrap();
        let whole = codeword(layout, 54);
        for count in [1, 2, numbers.most_lost() - 1, numbers.most_lost()] {
            let host = dice.below(numbers.racks);
            let places = dice.choose(count, numbers.size);
            let tray = |place| Tray((host * numbers.size + place) as u32);
            let lost: Vec<Tray> = places.into_iter().map(tray).collect();
            let sets = helper_sets(&numbers, host);
            let helpers = &sets[dice.below(sets.len())];
            let case = RepairMany::whole(layout, &whole, &lost, helpers, &mut dice);
            let repaired = case.run().unwrap();
            assert_eq!(repaired.spare, lost_of(layout, &whole, &lost));
        }
    }
}

/// Two trays of a cabinet with 1,024 layers, cut at random.
fn two_trays_of_the_large_cabinet<F: Tried>() {
    let mut dice = Dice::new(55);
    let layout = Layout::<F>::from(F::LARGE_CABINET);
    let whole = codeword(layout, 56);
    let lost = [Tray(4 * layout.size), Tray(4 * layout.size + 2)];
    let sets = helper_sets(&layout.numbers().unwrap(), 4);
    let mut piece = RepairMany::whole(layout, &whole, &lost, &sets[0], &mut dice);
    while piece.first < 512 {
        piece.budget = dice.below(200) as u64;
        let repaired = piece.run().unwrap();
        piece.first += repaired.groups;
        piece.spare = repaired.spare;
    }
    assert_eq!(piece.spare, lost_of(layout, &whole, &lost));
}

/// Whatever the shares and the sound trays: with the trays written, the checks
/// t = u·w + m summed over each group have a solution in the silent racks.
fn any_shares_are_answered_by_the_checks<F: Tried>() {
    let mut dice = Dice::new(58);
    for shape in F::SHAPES_OF_MANY {
        let layout = Layout::<F>::from(shape);
        let numbers = layout.numbers().unwrap();
        let checks = Checks::<F>::new(numbers);
        for count in 1..=numbers.most_lost() {
            let host = dice.below(numbers.racks);
            let lists = lost_lists(&numbers, host, count);
            let sets = helper_sets(&numbers, host);
            let lost = &lists[dice.below(lists.len())];
            let helpers = &sets[dice.below(sets.len())];
            let mut case =
                RepairMany::whole(layout, &codeword(layout, 59), lost, helpers, &mut dice);
            case.shares = dice.symbols::<F>(case.shares.len());
            case.host = dice.symbols::<F>(case.host.len());
            let repaired = case.run().unwrap().spare;
            let mut rack = case.host.clone();
            for (tray, symbols) in lost.iter().zip(repaired.chunks(numbers.layers)) {
                let place = tray.0 as usize % numbers.size;
                rack[place * numbers.layers..][..numbers.layers].copy_from_slice(symbols);
            }
            for group in 0..numbers.groups {
                for m in 0..count {
                    assert!(consistent(&numbers, &checks, &case, &rack, group, m));
                }
            }
        }
    }
}

/// Whether the checks t = u·w + m summed over a group can hold with the host
/// rack's symbols and the helpers' shares.
fn consistent<F: Field>(
    numbers: &Numbers,
    checks: &Checks<F>,
    case: &RepairMany<F>,
    rack: &[F::Symbol],
    group: usize,
    m: usize,
) -> bool {
    let host = case.lost[0].0 as usize / numbers.size;
    let layers: Vec<usize> = (0..numbers.layers)
        .filter(|&layer| numbers.group(host, layer) == group)
        .collect();
    let helper_at = |rack: usize| {
        case.helpers
            .iter()
            .position(|other| other.0 as usize == rack)
    };
    let silent: Vec<usize> = (0..numbers.racks)
        .filter(|&rack| rack != host && helper_at(rack).is_none())
        .collect();
    let equation = |w: usize| {
        let t = numbers.size * w + m;
        let mut known = F::ZERO;
        for &layer in &layers {
            for place in 0..numbers.size {
                let coefficient = checks.coefficient(host * numbers.size + place, layer, t);
                let symbol = rack[place * numbers.layers + layer];
                known = F::add(known, F::multiply(coefficient, symbol));
            }
        }
        for (at, helper) in case.helpers.iter().enumerate() {
            let first_tray = helper.0 as usize * numbers.size;
            let coefficient = checks.coefficient(first_tray, layers[0], t);
            let symbol = case.shares[(at * case.lost.len() + m) * numbers.groups + group];
            known = F::add(known, F::multiply(coefficient, symbol));
        }
        let of_silent = silent
            .iter()
            .map(|&rack| checks.coefficient(rack * numbers.size, layers[0], t));
        of_silent.chain([F::negate(known)]).collect()
    };
    let equations = (0..numbers.rack_checks).map(equation).collect();
    solve::<F>(equations, silent.len()).is_some()
}

/// A tray's coefficient in check t = u·w + m is that of place 0 times its
/// weight, in every admissible layout.
fn weights_are_what_places_differ_by<F: Tried>() {
    for layout in common::admissible::<F>() {
        let numbers = layout.numbers().unwrap();
        let checks = Checks::<F>::new(numbers);
        assert!(numbers.size * (numbers.rack_checks - 1) + numbers.most_lost() == numbers.checks);
        for m in 0..numbers.most_lost() {
            for tray in 0..numbers.trays {
                let place = tray % numbers.size;
                let t = numbers.size * (numbers.rack_checks - 1) + m;
                let of_place_0 = checks.coefficient(tray - place, 0, t);
                let product = F::multiply(of_place_0, weight::<F>(&numbers, place, m));
                assert_eq!(checks.coefficient(tray, 0, t), product);
            }
        }
    }
}

/// Pieces in random cuts, refused ones between, over any shares: the groups
/// done are as one call writes them, and all else is as it was.
fn pieces_make_the_whole<F: Tried>() {
    let mut dice = Dice::new(60);
    for shape in F::SHAPES_OF_MANY {
        let layout = Layout::<F>::from(shape);
        let numbers = layout.numbers().unwrap();
        let groups = numbers.groups as u64;
        for count in 1..=numbers.most_lost() {
            for host in 0..numbers.racks {
                let lists = lost_lists(&numbers, host, count);
                let lost = &lists[dice.below(lists.len())];
                let helpers = &helper_sets(&numbers, host)[0];
                let mut piece =
                    RepairMany::whole(layout, &codeword(layout, 61), lost, helpers, &mut dice);
                piece.shares = dice.symbols::<F>(piece.shares.len());
                let first_spare = piece.spare.clone();
                let uncut = piece.run().unwrap();
                let (mut done, mut crossed) = (0, 0);
                while done < groups {
                    piece.first = groups + 1;
                    assert_eq!(piece.run(), Err(Refusal::FirstGroup));
                    piece.first = done;
                    piece.budget = dice.below(numbers.groups + 2) as u64;
                    let repaired = piece.run().unwrap();
                    done += repaired.groups;
                    crossed += repaired.crossed;
                    assert_eq!(repaired.groups, piece.budget.min(groups - piece.first));
                    assert_eq!(crossed + repaired.remaining, uncut.crossed);
                    piece.spare = repaired.spare;
                    for at in 0..count * numbers.layers {
                        let group = numbers.group(host, at % numbers.layers) as u64;
                        let source = if group < done {
                            &uncut.spare
                        } else {
                            &first_spare
                        };
                        assert_eq!(piece.spare[at], source[at]);
                    }
                }
            }
        }
    }
}

/// A group's symbols hang on its e·d share symbols and the sound host symbols
/// of its layers alone.
fn a_group_hangs_on_its_own_symbols<F: Tried>() {
    let mut dice = Dice::new(62);
    let layout = Layout::<F>::from(F::SHAPE);
    let numbers = layout.numbers().unwrap();
    let lost = [Tray(2 * layout.size), Tray(2 * layout.size + 2)];
    let helpers = [0, 1, 3].map(Rack);
    let one = RepairMany::whole(layout, &codeword(layout, 63), &lost, &helpers, &mut dice);
    let written = one.run().unwrap().spare;
    for group in 0..numbers.groups {
        let mut other = one.clone();
        other.shares = dice.symbols::<F>(one.shares.len());
        other.host = dice.symbols::<F>(one.host.len());
        other
            .shares
            .iter_mut()
            .zip(&one.shares)
            .enumerate()
            .filter(|(at, _)| at % numbers.groups == group)
            .for_each(|(_, (symbol, same))| *symbol = *same);
        let layers: Vec<usize> = (0..numbers.layers)
            .filter(|&layer| numbers.group(2, layer) == group)
            .collect();
        for &layer in &layers {
            for place in (0..numbers.size).filter(|place| ![0, 2].contains(place)) {
                let at = place * numbers.layers + layer;
                other.host[at] = one.host[at];
            }
        }
        other.first = group as u64;
        other.budget = 1;
        let rewritten = other.run().unwrap().spare;
        for at in 0..2 * numbers.layers {
            let of_group = layers.contains(&(at % numbers.layers));
            let source = if of_group { &written } else { &one.spare };
            assert_eq!(rewritten[at], source[at]);
        }
    }
}

/// The trays of a whole rack come back with no sound tray read.
fn with_a_whole_rack_lost_its_symbols_do_not_matter<F: Tried>() {
    let mut dice = Dice::new(64);
    let layout = Layout::<F>::from(F::SHAPES_OF_MANY[0]);
    let numbers = layout.numbers().unwrap();
    let whole = codeword(layout, 65);
    let lost: Vec<Tray> = (layout.size..2 * layout.size).map(Tray).collect();
    let helpers = [0, 2, 3].map(Rack);
    let mut case = RepairMany::whole(layout, &whole, &lost, &helpers, &mut dice);
    case.host = dice.symbols::<F>(case.host.len());
    assert_eq!(case.run().unwrap().spare, rack_of(&numbers, &whole, 1));
}
