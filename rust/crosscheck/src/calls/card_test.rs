//! Testing a repair card.

use super::card_print::{reference_place, Place, CARD, SHAPE};
use super::{library_layout, reference_layout, Call, Looks};
use crate::answer::Answer;
use crate::field::in_field;
use crate::inputs::Inputs;
use crate::lent::Lent;

pub const CALL: Call = Call {
    name: "card_test",
    shape: SHAPE,
    errors: &[0],
    grounds: &[1, 2, 3, 4, 5, 6, 15],
    looks: Looks::AtAll,
    example: |source, cabinet| {
        let place = Place::draw(&mut source.random, cabinet);
        let card = place.any(&mut source.random);
        place.inputs(card)
    },
    library,
    reference,
};

fn library(inputs: &Inputs) -> Answer {
    let (layout, group) = (library_layout(inputs), inputs.wide(3));
    let lost = gesarumbo::Tray::new(inputs.small(1));
    let helpers = Lent::list(inputs.list(2), gesarumbo::Rack::new);
    in_field!(inputs.field, {
        let card = inputs.lent::<F>(CARD);
        let tested = library::card_test(layout, lost, helpers.part(), card.part(), group);
        Answer::new(tested.map(|()| []))
            .read("the helper list", &helpers)
            .read("the card", &card)
    })
}

fn reference(inputs: &Inputs) -> Answer {
    let (lost, helpers) = reference_place(inputs);
    let tested = in_field!(inputs.field, {
        let (layout, card) = (reference_layout::<F>(inputs), inputs.given::<F>(CARD));
        reference::card_test(layout, lost, &helpers, &card, inputs.wide(3))
    });
    Answer::new(tested.map(|()| []))
}
