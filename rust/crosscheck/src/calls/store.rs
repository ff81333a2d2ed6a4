//! Storing data.

use super::{library_layout, reference_layout, Call, Looks};
use crate::answer::Answer;
use crate::cabinet::Cabinet;
use crate::field::in_field;
use crate::inputs::{Inputs, Kind, Value};
use crate::source::{Source, EITHER};

pub const CALL: Call = Call {
    name: "store",
    shape: &[Kind::Layout, Kind::Symbols, Kind::Symbols],
    errors: EITHER,
    grounds: &[1, 2],
    looks: Looks::AtSome(|_, at, _| at == DATA),
    example,
    library,
    reference,
};

const DATA: usize = 1;
const CODEWORD: usize = 2;

pub fn example(source: &mut Source, cabinet: &Cabinet) -> Inputs {
    let random = &mut source.random;
    let length = cabinet.numbers.dimension * cabinet.numbers.layers;
    let data = random.symbols(cabinet.field, length);
    let codeword = random.noise(cabinet.field, cabinet.symbols());
    cabinet.inputs([data, codeword].map(Value::Symbols))
}

fn library(inputs: &Inputs) -> Answer {
    in_field!(inputs.field, {
        let data = inputs.lent::<F>(DATA);
        let mut codeword = inputs.lent::<F>(CODEWORD);
        let layout = library_layout(inputs);
        let stored = library::store(layout, data.part(), codeword.part_mut());
        Answer::new(stored.map(|()| []))
            .written(inputs.field, &codeword)
            .read("the data", &data)
    })
}

fn reference(inputs: &Inputs) -> Answer {
    in_field!(inputs.field, {
        let [data, codeword] = [DATA, CODEWORD].map(|at| inputs.given::<F>(at));
        let stored = reference::store(reference_layout::<F>(inputs), &data, &codeword);
        Answer::filled(inputs, CODEWORD, stored)
    })
}
