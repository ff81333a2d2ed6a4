//! Testing a codeword.

use super::{library_layout, reference_layout, Call, Looks};
use crate::answer::Answer;
use crate::cabinet::Cabinet;
use crate::damage;
use crate::field::{in_field, Symbol};
use crate::inputs::{Inputs, Kind, Value};
use crate::source::{Source, EITHER};

pub const CALL: Call = Call {
    name: "test",
    shape: &[Kind::Layout, Kind::Symbols],
    errors: EITHER,
    grounds: &[1, 2],
    looks: Looks::AtAll,
    example,
    library,
    reference,
};

pub fn inputs(cabinet: &Cabinet, codeword: Vec<Symbol>) -> Inputs {
    cabinet.inputs([Value::Symbols(codeword)])
}

/// The answer's numbers for a bad layer and the least check broken there.
pub fn bad(layer: u32, check: u32) -> [i128; 3] {
    [2, i128::from(layer), i128::from(check)]
}

const SOUND: [i128; 3] = [1, 0, 0];

/// A codeword: sound, with one damaged symbol, with a layer that breaks a
/// chosen check first, or mere noise.
fn example(source: &mut Source, cabinet: &Cabinet) -> Inputs {
    let random = &mut source.random;
    let mut codeword = cabinet.codeword(random);
    match random.below(5) {
        0 | 1 => {}
        2 => damage::anywhere(cabinet, random, &mut codeword),
        3 => {
            let layer = random.below(cabinet.numbers.layers);
            let least = random.below(cabinet.numbers.checks);
            damage::least_broken(cabinet, random, &mut codeword, layer, least);
        }
        _ => codeword = random.symbols(cabinet.field, cabinet.symbols()),
    }
    inputs(cabinet, codeword)
}

fn library(inputs: &Inputs) -> Answer {
    let numbers = |tested| match tested {
        gesarumbo::Tested::Sound => SOUND,
        gesarumbo::Tested::Bad { layer, check } => bad(layer.number(), check),
    };
    in_field!(inputs.field, {
        let codeword = inputs.lent::<F>(1);
        let tested = library::test(library_layout(inputs), codeword.part());
        Answer::new(tested.map(numbers)).read("the codeword", &codeword)
    })
}

fn reference(inputs: &Inputs) -> Answer {
    let tested = in_field!(
        inputs.field,
        reference::test(reference_layout::<F>(inputs), &inputs.given::<F>(1))
    );
    let numbers = |tested| match tested {
        reference::Tested::Sound => SOUND,
        reference::Tested::Bad { layer, check } => bad(layer.0, check),
    };
    Answer::new(tested.map(numbers))
}
