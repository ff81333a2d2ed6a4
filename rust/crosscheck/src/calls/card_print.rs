//! Printing a repair card.

use super::{library_layout, reference_layout, Call, Looks};
use crate::answer::Answer;
use crate::cabinet::Cabinet;
use crate::field::{in_field, Symbol};
use crate::given::helpers;
use crate::inputs::{Inputs, Kind, Value};
use crate::lent::Lent;
use crate::random::Random;

pub const CALL: Call = Call {
    name: "card_print",
    shape: SHAPE,
    errors: &[0],
    grounds: &[1, 2, 3, 4, 5, 6],
    looks: Looks::AtNone,
    example: |source, cabinet| {
        let random = &mut source.random;
        let length = cabinet.numbers.helpers * cabinet.numbers.base;
        let noise = random.noise(cabinet.field, length);
        Place::draw(random, cabinet).inputs(noise)
    },
    library,
    reference,
};

/// The inputs of the calls for a card alone: layout, lost tray, helpers, group and card.
pub const SHAPE: &[Kind] = &[
    Kind::Layout,
    Kind::Small,
    Kind::List,
    Kind::Wide,
    Kind::Symbols,
];
pub const CARD: usize = 4;

/// What a card is for.
#[derive(Clone, Debug)]
pub struct Place {
    pub cabinet: Cabinet,
    pub lost: u32,
    pub helpers: Vec<u32>,
    pub group: u64,
}

impl Place {
    /// Any tray, helpers and group of a layout.
    pub fn draw(random: &mut Random, cabinet: &Cabinet) -> Place {
        let lost = random.below(cabinet.numbers.trays) as u32;
        Place {
            cabinet: *cabinet,
            lost,
            helpers: helpers(random, cabinet, cabinet.rack_of(lost)),
            group: random.place(cabinet.numbers.groups) as u64,
        }
    }

    pub fn inputs(&self, card: Vec<Symbol>) -> Inputs {
        self.cabinet.inputs([
            Value::Small(self.lost),
            Value::List(self.helpers.clone()),
            Value::Wide(self.group),
            Value::Symbols(card),
        ])
    }

    /// The right card by the second program; zeros where a call for it is refused.
    pub fn right(&self) -> Vec<Symbol> {
        let numbers = &self.cabinet.numbers;
        let zeros = vec![0; numbers.helpers * numbers.base];
        (CALL.reference)(&self.inputs(zeros)).symbols().to_vec()
    }

    /// The right card, or one that may not be: with a multiplier changed, of another place of the
    /// layout, or of any numbers.
    pub fn any(&self, random: &mut Random) -> Vec<Symbol> {
        let field = self.cabinet.field;
        let mut card = self.right();
        match random.below(6) {
            0 => {
                let at = random.place(card.len());
                card[at] = field.add(card[at], random.nonzero(field));
            }
            1 => card = Place::draw(random, &self.cabinet).right(),
            2 => card = random.symbols(field, card.len()),
            _ => {}
        }
        card
    }
}

fn library(inputs: &Inputs) -> Answer {
    let (layout, group) = (library_layout(inputs), inputs.wide(3));
    let lost = gesarumbo::Tray::new(inputs.small(1));
    let helpers = Lent::list(inputs.list(2), gesarumbo::Rack::new);
    in_field!(inputs.field, {
        let mut card = inputs.lent::<F>(CARD);
        let printed = library::card(layout, lost, helpers.part(), group, card.part_mut());
        Answer::new(printed.map(|()| []))
            .written(inputs.field, &card)
            .read("the helper list", &helpers)
    })
}

fn reference(inputs: &Inputs) -> Answer {
    let (lost, helpers) = reference_place(inputs);
    in_field!(inputs.field, {
        let (layout, card) = (reference_layout::<F>(inputs), inputs.given::<F>(CARD));
        let printed = reference::card(layout, lost, &helpers, inputs.wide(3), &card);
        Answer::filled(inputs, CARD, printed)
    })
}

/// The lost tray and the helpers as the second program takes them.
pub fn reference_place(inputs: &Inputs) -> (reference::Tray, Vec<reference::Rack>) {
    let helpers = inputs.list(2).iter().copied();
    let lost = reference::Tray(inputs.small(1));
    (lost, helpers.map(reference::Rack).collect())
}
