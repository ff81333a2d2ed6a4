//! Many codewords in a call, few or as many as a block ends beside, held against the
//! library's own call for one codeword: at times with an input spoilt that is no
//! buffer's length.

use super::Draw;
use crate::batches::compare;
use crate::cabinet::Cabinet;
use crate::calls::batch::{batches, beside_end, MANY};
use crate::crosscheck::Crosscheck;
use crate::field::FIELDS;
use crate::inputs::{Inputs, Value};
use crate::source::EITHER;
use crate::spoil::spoil;

pub const DRAW: Draw = Draw {
    name: "batches",
    gate: 6_000,
    short: 100,
    case,
};

/// A batch has at most about so many symbols.
const MOST_SYMBOLS: usize = 40_000;

fn case(all: &mut Crosscheck) {
    let field = all.source.random.pick(&FIELDS);
    let batch = all.source.random.pick(batches(field));
    let any = all.source.random.one_in(8);
    let errors = if any { EITHER } else { batch.many.errors };
    let cabinet = all.source.cabinet_of(field, errors);
    let random = &mut all.source.random;
    let many = match random.below(3) {
        0 => random.below(8),
        _ => beside_end(random),
    };
    let many = many.min(1 + MOST_SYMBOLS / cabinet.symbols());
    let mut inputs = (batch.draw)(&mut all.source, &cabinet, many);
    if all.source.random.one_in(3) {
        spoil_contents(all, &cabinet, &mut inputs);
    }
    compare(all, batch, &cabinet, &inputs);
}

/// Spoils the inputs, and takes back what changes the layout or the number of
/// codewords or the length of a buffer.
fn spoil_contents(all: &mut Crosscheck, cabinet: &Cabinet, inputs: &mut Inputs) {
    let before = inputs.clone();
    let times = 1 + all.source.random.below(2);
    spoil(&mut all.source, cabinet, inputs, times);
    for (at, value) in inputs.values.iter_mut().enumerate() {
        let length = |value: &Value| match value {
            Value::Symbols(symbols) => symbols.len(),
            _ => 0,
        };
        if at <= MANY || length(value) != length(&before.values[at]) {
            *value = before.values[at].clone();
        }
    }
}
