//! Repairing several lost trays of one rack, whole or a piece.

use super::repair::{library_answer, looks, reference_answer};
use super::{any_lost_count, library_layout, Call, Looks};
use crate::answer::Answer;
use crate::cabinet::Cabinet;
use crate::field::in_field;
use crate::given::Given;
use crate::inputs::{Inputs, Kind};
use crate::lent::Lent;
use crate::source::Source;

pub const CALL: Call = Call {
    name: "repair_e",
    shape: &[
        Kind::Layout,
        Kind::List,
        Kind::List,
        Kind::Symbols,
        Kind::Symbols,
        Kind::Symbols,
        Kind::Wide,
        Kind::Wide,
    ],
    errors: &[0],
    grounds: &[1, 2, 3, 4, 5, 12, 6, 7],
    looks: Looks::AtSome(|inputs, at, place| looks(inputs, inputs.list(1), at, place)),
    example,
    library,
    reference,
};

fn example(source: &mut Source, cabinet: &Cabinet) -> Inputs {
    let random = &mut source.random;
    let count = any_lost_count(random, cabinet).min(cabinet.numbers.size);
    let lost = cabinet.lost(random, count);
    Given::draw(random, cabinet, lost).some_piece(random)
}

fn library(inputs: &Inputs) -> Answer {
    let layout = library_layout(inputs);
    let list = Lent::list(inputs.list(1), gesarumbo::Tray::new);
    let lost = list.part();
    let [first, budget] = [6, 7].map(|at| inputs.wide(at));
    let answer = in_field!(
        inputs.field,
        library_answer::<F>(inputs, |helpers, shares, host, spare| {
            library::repair_many(layout, lost, helpers, shares, host, spare, first, budget)
        })
    );
    answer.read("the lost list", &list)
}

fn reference(inputs: &Inputs) -> Answer {
    let lost = Some(inputs.list(1));
    in_field!(inputs.field, reference_answer::<F>(inputs, lost))
}
