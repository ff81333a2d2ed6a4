//! Repairing one group of a lost tray by a card.

use super::card_print::{reference_place, Place};
use super::repair::{library_answer, HOST, SHARES, SPARE};
use super::{library_layout, reference_layout, Call, Looks};
use crate::answer::Answer;
use crate::cabinet::Cabinet;
use crate::field::in_field;
use crate::given::Given;
use crate::inputs::{Inputs, Kind};
use crate::source::Source;

pub const CALL: Call = Call {
    name: "card_repair",
    shape: &[
        Kind::Layout,
        Kind::Small,
        Kind::List,
        Kind::Symbols,
        Kind::Symbols,
        Kind::Symbols,
        Kind::Wide,
        Kind::Symbols,
    ],
    errors: &[0],
    grounds: &[1, 2, 3, 4, 5, 6, 15],
    looks: Looks::AtSome(looks),
    example,
    library,
    reference,
};

const GROUP: usize = 6;
const CARD: usize = 7;

/// At the card, at the share symbols of the group, and at the sound trays of the host rack in its
/// layers.
fn looks(inputs: &Inputs, at: usize, place: usize) -> bool {
    let cabinet = Cabinet::named(inputs.field, inputs.layout());
    let (groups, layers) = (cabinet.numbers.groups, cabinet.numbers.layers);
    let lost = inputs.small(1);
    let own = |group: usize| group as u64 == inputs.wide(GROUP);
    match at {
        CARD => true,
        SHARES => own(place % groups),
        HOST => {
            let host = cabinet.rack_of(lost) as usize;
            let sound = place / layers != (lost % cabinet.layout[1]) as usize;
            sound && own(cabinet.numbers.group(host, place % layers))
        }
        _ => false,
    }
}

fn example(source: &mut Source, cabinet: &Cabinet) -> Inputs {
    let random = &mut source.random;
    let lost = cabinet.lost(random, 1);
    let given = Given::draw(random, cabinet, lost);
    let group = random.place(cabinet.numbers.groups) as u64;
    let place = Place {
        group,
        ..given.place()
    };
    let card = place.any(random);
    let spare = given.spare(random);
    given.by_card(random, &spare, group, card)
}

fn library(inputs: &Inputs) -> Answer {
    let (layout, group) = (library_layout(inputs), inputs.wide(GROUP));
    let lost = gesarumbo::Tray::new(inputs.small(1));
    in_field!(inputs.field, {
        let card = inputs.lent::<F>(CARD);
        library_answer::<F>(inputs, |helpers, shares, host, spare| {
            let card = card.part();
            library::card_repair(layout, lost, helpers, card, shares, host, spare, group)
        })
        .read("the card", &card)
    })
}

fn reference(inputs: &Inputs) -> Answer {
    in_field!(inputs.field, reference_answer::<F>(inputs))
}

fn reference_answer<F: reference::Field>(inputs: &Inputs) -> Answer {
    let (lost, helpers) = reference_place(inputs);
    let [shares, host, spare, card] = [SHARES, HOST, SPARE, CARD].map(|at| inputs.given::<F>(at));
    let given = reference::Given {
        lost,
        helpers: &helpers,
        shares: &shares,
        host: &host,
    };
    let layout = reference_layout::<F>(inputs);
    let repaired = reference::card_repair(layout, given, &card, &spare, inputs.wide(GROUP));
    let after = repaired.as_ref().ok().map(|done| done.spare.clone());
    Answer::new(repaired.map(|done| [done.groups, done.crossed, done.remaining].map(i128::from)))
        .lent(inputs.field, inputs.symbols(SPARE), after.as_deref())
}
