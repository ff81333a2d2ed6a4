//! W13: repair cards.

mod common;

use common::cases::{CardPrint, CardRepair, CardTest, Repair, RepairMany};
use common::{codeword, helper_sets, over_both_fields, rack_of, shares, Dice, Tried};
use reference::*;

over_both_fields! {
    the_printed_card_is_right,
    one_multiplier_is_right,
    a_card_is_for_its_rack_group_and_helpers,
    a_right_card_gives_the_sums_of_codewords,
    a_repair_by_card_is_the_piece,
    pieces_and_cards_make_the_tray,
}

/// For each layout, host rack and group, a card with one of the helper sets.
fn cards<F: Tried>(seed: u64) -> Vec<CardPrint<F>> {
    let dice = &mut Dice::new(seed);
    let mut cards = vec![];
    for shape in F::SHAPES.into_iter().chain(F::LARGE_RACKS) {
        let layout = Layout::<F>::from(shape);
        let numbers = layout.numbers().unwrap();
        let step = if numbers.groups > 40 { 9 } else { 1 };
        for host in 0..numbers.racks {
            let sets = helper_sets(&numbers, host);
            for group in (0..numbers.groups).step_by(step) {
                let helpers = &sets[dice.below(sets.len())];
                let lost = Tray((host * numbers.size + dice.below(numbers.size)) as u32);
                cards.push(CardPrint::of(layout, lost, helpers, group as u64, dice));
            }
        }
    }
    cards
}

fn changed<F: Tried>(test: &CardTest<F>, at: usize, added: F::Symbol) -> CardTest<F> {
    let mut other = test.clone();
    other.0.card[at] = F::add(other.0.card[at], added);
    other
}

/// And no card that differs from it in one multiplier is.
fn the_printed_card_is_right<F: Tried>() {
    let dice = &mut Dice::new(151);
    for print in cards::<F>(152) {
        let test = print.printed();
        assert_eq!(test.run(), Ok(()));
        for at in 0..test.0.card.len() {
            let other = changed(&test, at, dice.nonzero::<F>());
            assert_eq!(other.run(), Err(Refusal::Card));
        }
        let any = CardTest(print);
        assert_eq!(any.run().is_ok(), any.0.card == test.0.card);
    }
}

/// Of all values that a multiplier can have.
fn one_multiplier_is_right<F: Tried>() {
    let layout = Layout::<F>::from([3, 1, 1, 2]);
    let helpers = [0, 2].map(Rack);
    let print = CardPrint::of(layout, Tray(1), &helpers, 3, &mut Dice::new(153));
    let right = print.printed();
    for at in 0..4 {
        let all = (0..=u16::MAX).map_while(|number| F::Symbol::try_from(number).ok());
        let values = all.filter(|&number| F::is_symbol(number));
        let accepted = values.filter(|&value| {
            let mut test = right.clone();
            test.0.card[at] = value;
            test.run().is_ok()
        });
        assert_eq!(accepted.collect::<Vec<_>>(), [right.0.card[at]]);
    }
}

/// A card is the same for each tray of a rack; for another rack, group or set of
/// helpers it is right only where the right card there is the same.
fn a_card_is_for_its_rack_group_and_helpers<F: Tried>() {
    let all: Vec<CardTest<F>> = cards::<F>(154).iter().map(CardPrint::printed).collect();
    let mut refused = 0;
    for (at, here) in all.iter().enumerate() {
        let mut other = here.0.clone();
        other.lost = Tray(other.lost.0 / other.layout.size * other.layout.size);
        assert_eq!(other.run().as_ref(), Ok(&here.0.card));
        let near = all[at..].iter().take(9);
        for there in near.filter(|there| there.0.layout == here.0.layout) {
            let mut moved = there.clone();
            moved.0.card = here.0.card.clone();
            let right = moved.run().is_ok();
            assert_eq!(right, here.0.card == there.0.card);
            refused += usize::from(!right);
        }
    }
    assert!(refused > 100);
}

/// What "right" means, tried on codewords of random data.
fn a_right_card_gives_the_sums_of_codewords<F: Tried>() {
    for print in cards::<F>(155).into_iter().step_by(3) {
        let numbers = print.layout.numbers().unwrap();
        let card = print.run().unwrap();
        let host = print.lost.0 as usize / numbers.size;
        let whole = codeword(print.layout, 156);
        let rack = rack_of(&numbers, &whole, host);
        let sent = shares(print.layout, &whole, Rack(host as u32), &print.helpers);
        let layers =
            (0..numbers.layers).filter(|&layer| numbers.group(host, layer) as u64 == print.group);
        for (layer, multipliers) in layers.zip(card.chunks(numbers.helpers)) {
            let trays = rack.chunks(numbers.layers);
            let sum = F::sum(trays.map(|tray| tray[layer]));
            let shares = sent.chunks(numbers.groups);
            let symbols = shares.map(|share| share[print.group as usize]);
            let terms = multipliers.iter().zip(symbols);
            assert_eq!(
                F::sum(terms.map(|(&m, symbol)| F::multiply(m, symbol))),
                sum
            );
        }
    }
}

/// On the shares of a codeword, and on any shares and sound trays.
fn a_repair_by_card_is_the_piece<F: Tried>() {
    let dice = &mut Dice::new(157);
    for print in cards::<F>(158).into_iter().step_by(2) {
        let whole = codeword(print.layout, 159);
        let mut piece =
            RepairMany::whole(print.layout, &whole, &[print.lost], &print.helpers, dice);
        for _ in 0..2 {
            let case = CardRepair::right(Repair(piece.clone()), print.group, dice);
            assert_eq!(case.run(), case.plain().run());
            piece.shares = dice.symbols::<F>(piece.shares.len());
            piece.host = dice.symbols::<F>(piece.host.len());
        }
    }
}

/// Some groups by cards and the others by pieces, in any order.
fn pieces_and_cards_make_the_tray<F: Tried>() {
    let dice = &mut Dice::new(160);
    let layout = Layout::<F>::from(F::SHAPE);
    let whole = codeword(layout, 161);
    let lost = Tray(2 * F::SHAPE[1]);
    let helpers = [0, 1, 4].map(Rack);
    let mut piece = RepairMany::whole(layout, &whole, &[lost], &helpers, dice);
    let mut groups: Vec<u64> = (0..16).collect();
    dice.shuffle(&mut groups);
    for group in groups {
        let case = CardRepair::right(Repair(piece.clone()), group, dice);
        let done = match dice.below(2) {
            0 => case.run().unwrap(),
            _ => case.plain().run().unwrap(),
        };
        assert_eq!((done.groups, done.crossed), (1, 3));
        assert_eq!(done.remaining, 3 * (15 - group));
        piece.spare = done.spare;
    }
    assert_eq!(piece.spare, whole[lost.0 as usize * 32..][..32]);
}

/// Two racks of one tray are the same in the field of 256; in that of 257 they
/// cancel.
#[test]
fn cards_by_hand() {
    let of_256 = Layout::<Field256>::from([2, 1, 1, 1]);
    assert_eq!(card(of_256, Tray(1), &[Rack(0)], 0, &[9]), Ok(vec![1]));
    let of_257 = Layout::<Field257>::from([2, 1, 1, 1]);
    assert_eq!(card(of_257, Tray(1), &[Rack(0)], 0, &[9]), Ok(vec![256]));
    // 256 is a multiplier, 257 is none.
    let tested = |card| card_test(of_257, Tray(1), &[Rack(0)], &[card], 0);
    assert_eq!(tested(256), Ok(()));
    assert_eq!(tested(257), Err(Refusal::Number));
    assert_eq!(tested(0), Err(Refusal::Card));
}
