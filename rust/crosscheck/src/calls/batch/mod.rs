//! The calls for many codewords, one file and one entry of
//! [`batches`] each, and
//! how their inputs are made of those for one codeword and taken apart again.

pub mod repair;
pub mod share;
pub mod store;

use super::Call;
use crate::answer::Answer;
use crate::cabinet::Cabinet;
use crate::field::{Field, Symbol};
use crate::inputs::{Inputs, Value};
use crate::random::Random;
use crate::source::Source;

/// Where the number of codewords stands among the inputs. Without it they are, in
/// number and kind, those of the call for one.
pub const MANY: usize = 1;

/// A call for many codewords, and the one for one.
pub struct Batch {
    pub many: &'static Call,
    pub one: &'static Call,
    /// Random inputs over a layout for so many codewords, as a call's example.
    pub draw: fn(&mut Source, &Cabinet, usize) -> Inputs,
    /// The numbers of its answer where it is done: from how many codewords there
    /// are, the answer for zeros and those for the parts.
    pub numbers: fn(u64, &Answer, &[Answer]) -> Vec<i128>,
}

/// Both fields have them alike.
const BATCHES: [&Batch; 3] = [&store::BATCH, &share::BATCH, &repair::BATCH];

/// Those of a field.
pub fn batches(_: Field) -> &'static [&'static Batch] {
    &BATCHES
}

/// All of them in a field.
pub fn calls(field: Field) -> Vec<&'static Call> {
    batches(field).iter().map(|batch| batch.many).collect()
}

/// The inputs for so many codewords as there are parts: numbers and lists are
/// those of the first one given, which is for one codeword as the parts are.
pub fn whole(like: &Inputs, parts: &[Inputs]) -> Inputs {
    let mut whole = like.clone();
    for (at, value) in whole.values.iter_mut().enumerate() {
        if let Value::Symbols(symbols) = value {
            let parts: Vec<&[Symbol]> = parts.iter().map(|part| part.symbols(at)).collect();
            *symbols = interleaved(symbols.len(), &parts);
        }
    }
    let many = Value::Wide(parts.len() as u64);
    whole.values.insert(MANY, many);
    whole
}

/// The buffer of which the codewords have these parts of this length.
pub fn interleaved(length: usize, parts: &[&[Symbol]]) -> Vec<Symbol> {
    let of_place = |at: usize| parts.iter().map(move |part| part[at]);
    (0..length).flat_map(of_place).collect()
}

/// The inputs for codeword q alone; there must be one.
pub fn part(inputs: &Inputs, q: usize) -> Inputs {
    let many = inputs.wide(MANY) as usize;
    let own = |value: &Value| match value {
        Value::Symbols(symbols) => {
            let own = symbols.iter().skip(q).step_by(many);
            Value::Symbols(own.copied().collect())
        }
        other => other.clone(),
    };
    let mut values: Vec<Value> = inputs.values.iter().map(own).collect();
    values.remove(MANY);
    Inputs {
        field: inputs.field,
        values,
    }
}

/// The inputs for a codeword of zeros, buffers as long as in the ones like these for
/// one codeword.
pub fn zeros(like: &Inputs, inputs: &Inputs) -> Inputs {
    let mut zeros = inputs.clone();
    zeros.values.remove(MANY);
    for (value, like) in zeros.values.iter_mut().zip(&like.values) {
        if let (Value::Symbols(symbols), Value::Symbols(like)) = (value, like) {
            *symbols = vec![0; like.len()];
        }
    }
    zeros
}

impl Batch {
    /// Random inputs for some codewords.
    fn example(&self, source: &mut Source, cabinet: &Cabinet) -> Inputs {
        let many = how_many(&mut source.random, cabinet);
        (self.draw)(source, cabinet, many)
    }
}

/// Beside these numbers of codewords a block may end.
const ENDS: [usize; 5] = [8, 16, 64, 128, 256];
/// A batch costs the second program at most about so many products, or has one
/// codeword.
const MOST_PRODUCTS: usize = 100_000;

/// How many codewords of a layout the second program may be put at once.
pub fn most(cabinet: &Cabinet) -> usize {
    let numbers = &cabinet.numbers;
    let of_layer = numbers.checks * (numbers.trays + numbers.checks * numbers.checks);
    (MOST_PRODUCTS / (numbers.layers * of_layer)).max(1)
}

/// A number of codewords: none, one, few, or beside a block's end.
fn how_many(random: &mut Random, cabinet: &Cabinet) -> usize {
    let many = match random.below(12) {
        0 => 0,
        1 | 2 => 1,
        3 | 4 => 2,
        5 => 3,
        6..9 => random.below(12),
        _ => beside_end(random),
    };
    many.min(most(cabinet))
}

/// A number of codewords at a block's end or beside it.
pub fn beside_end(random: &mut Random) -> usize {
    random.pick(&ENDS) - 1 + random.below(3)
}
