//! Storing many codewords' data.

use super::super::{library_layout, reference_layout, store, Call, Looks};
use super::{whole, Batch, MANY};
use crate::answer::Answer;
use crate::cabinet::Cabinet;
use crate::field::in_field;
use crate::inputs::{Inputs, Kind};
use crate::source::{Source, EITHER};

pub const BATCH: Batch = Batch {
    many: &CALL,
    one: &store::CALL,
    draw,
    numbers: |_, _, _| vec![],
};

pub const CALL: Call = Call {
    name: "store_batch",
    shape: &[Kind::Layout, Kind::Wide, Kind::Symbols, Kind::Symbols],
    errors: EITHER,
    grounds: &[1, 2],
    looks: Looks::AtSome(|_, at, _| at == DATA),
    example: |source, cabinet| BATCH.example(source, cabinet),
    library,
    reference,
};

const DATA: usize = 2;
const CODEWORDS: usize = 3;

fn draw(source: &mut Source, cabinet: &Cabinet, many: usize) -> Inputs {
    let like = store::example(source, cabinet);
    let parts: Vec<Inputs> = (0..many).map(|_| store::example(source, cabinet)).collect();
    whole(&like, &parts)
}

fn library(inputs: &Inputs) -> Answer {
    let (layout, many) = (library_layout(inputs), inputs.wide(MANY) as usize);
    in_field!(inputs.field, {
        let data = inputs.lent::<F>(DATA);
        let mut codewords = inputs.lent::<F>(CODEWORDS);
        let stored = library::store_batch(layout, many, data.part(), codewords.part_mut());
        Answer::new(stored.map(|()| []))
            .written(inputs.field, &codewords)
            .read("the data", &data)
    })
}

fn reference(inputs: &Inputs) -> Answer {
    let many = inputs.wide(MANY);
    in_field!(inputs.field, {
        let layout = reference_layout::<F>(inputs);
        let [data, codewords] = [DATA, CODEWORDS].map(|at| inputs.given::<F>(at));
        let stored = reference::store_batch(layout, many, &data, &codewords);
        Answer::filled(inputs, CODEWORDS, stored)
    })
}
