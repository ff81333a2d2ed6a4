//! Repair cards: the one that is printed is right, and with any multiplier changed it is not; it
//! is the same for all trays of a rack, and right for another group, host or set of helpers only
//! where the card there is the same; a repair by it is the piece that does its group.

use super::Sweep;
use crate::cabinet::Cabinet;
use crate::calls::card_print::Place;
use crate::calls::{card_print, card_repair, card_test, repair};
use crate::crosscheck::Crosscheck;
use crate::field::Symbol;
use crate::given::Given;
use crate::pair::for_one;
use crate::source::Source;

/// An item is a layout.
pub const SWEEP: Sweep = Sweep {
    name: "cards",
    items: |source| cabinets(source).count(),
    short_step: 60,
    item,
};

/// Of the layouts with one layer, and of the large ones, one in so many.
const FLAT_STEP: usize = 12;
const LARGE_STEP: usize = 150;

/// So many cards are tried for each layout.
const CARDS: usize = 4;

fn cabinets(source: &Source) -> impl Iterator<Item = Cabinet> + '_ {
    let small = source.small(0, FLAT_STEP);
    small.chain(source.large(0, LARGE_STEP))
}

fn item(all: &mut Crosscheck, at: usize) {
    let cabinet = cabinets(&all.source).nth(at).expect("an item is a layout");
    let places: Vec<Place> = (0..CARDS)
        .map(|_| Place::draw(&mut all.source.random, &cabinet))
        .collect();
    let cards: Vec<Vec<Symbol>> = places.iter().map(|place| printed(all, place)).collect();
    for (place, card) in places.iter().zip(&cards) {
        every_multiplier(all, place, card);
        for (other, right) in places.iter().zip(&cards) {
            let refusal = if card == right { 0 } else { 15 };
            tested(all, other, card.clone(), refusal);
        }
        next_group(all, place, card);
    }
    as_a_piece(all, &cabinet);
}

/// The card that the library prints, also for another tray of the rack.
fn printed(all: &mut Crosscheck, place: &Place) -> Vec<Symbol> {
    let cabinet = &place.cabinet;
    let rack = cabinet.trays_of(cabinet.rack_of(place.lost));
    let other = Place {
        lost: all.source.random.pick(&rack),
        ..place.clone()
    };
    let length = cabinet.numbers.helpers * cabinet.numbers.base;
    let [card, same] = [place, &other].map(|place| {
        let noise = all.source.random.noise(cabinet.field, length);
        let answer = all.run.compare(&card_print::CALL, &place.inputs(noise));
        answer.symbols().to_vec()
    });
    all.run
        .claim(card == same, || format!("{place:?}: {card:?}, {same:?}"));
    card
}

fn tested(all: &mut Crosscheck, place: &Place, card: Vec<Symbol>, refusal: u32) {
    let inputs = place.inputs(card);
    let answer = all.run.compare(&card_test::CALL, &inputs);
    all.run.claim(answer.refusal == refusal, || {
        format!("card_test {inputs}: {answer}, not {refusal}")
    });
}

fn every_multiplier(all: &mut Crosscheck, place: &Place, card: &[Symbol]) {
    let field = place.cabinet.field;
    for at in 0..card.len() {
        let mut wrong = card.to_vec();
        wrong[at] = field.add(wrong[at], all.source.random.nonzero(field));
        tested(all, place, wrong, 15);
    }
}

/// The same card for the group after its own.
fn next_group(all: &mut Crosscheck, place: &Place, card: &[Symbol]) {
    let next = Place {
        group: (place.group + 1) % place.cabinet.numbers.groups as u64,
        ..place.clone()
    };
    let refusal = if next.right() == card { 0 } else { 15 };
    tested(all, &next, card.to_vec(), refusal);
}

/// On the shares of a codeword or on any others.
fn as_a_piece(all: &mut Crosscheck, cabinet: &Cabinet) {
    let random = &mut all.source.random;
    let lost = cabinet.lost(random, 1);
    let given = Given::draw(random, cabinet, lost);
    let group = random.below(cabinet.numbers.groups) as u64;
    let place = Place {
        group,
        ..given.place()
    };
    let card = printed(all, &place);
    let random = &mut all.source.random;
    let spare = given.spare(random);
    let by_card = given.by_card(random, &spare, group, card);
    let piece = for_one(&given.inputs(random, &spare, group, 1)).expect("one is lost");
    let done = all.run.compare(&card_repair::CALL, &by_card);
    let plain = all.run.compare(&repair::CALL, &piece);
    all.run.claim(done == plain && done.refusal == 0, || {
        format!("card_repair {by_card}: {done}, not {plain}")
    });
}
