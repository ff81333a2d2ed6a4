//! Numbers above 256 lent as symbols of the field of 257, put in some places of
//! each buffer in turn: refused with 3 exactly where the call looks, and else
//! without any bearing on its answer.

use super::Sweep;
use crate::cabinet::Cabinet;
use crate::calls::{calls, Call};
use crate::crosscheck::Crosscheck;
use crate::field::Field;
use crate::inputs::{Inputs, Value};
use crate::source::Source;

/// An item is a layout.
pub const SWEEP: Sweep = Sweep {
    name: "large numbers",
    items: |source| cabinets(source).count(),
    short_step: 40,
    item,
};

/// Of the layouts with one layer, one in so many: with E = 0, with E = 1.
const FLAT_STEP: usize = 3;
const WARY_STEP: usize = 20;

fn cabinets(source: &Source) -> impl Iterator<Item = Cabinet> + '_ {
    let both = source.small(0, FLAT_STEP).chain(source.small(1, WARY_STEP));
    both.filter(|cabinet| cabinet.field == Field::Of257)
}

fn item(all: &mut Crosscheck, at: usize) {
    let cabinet = cabinets(&all.source).nth(at).expect("an item is a layout");
    let mut calls = calls(cabinet.field);
    calls.retain(|call| call.errors.contains(&cabinet.errors()));
    for call in calls {
        let inputs = (call.example)(&mut all.source, &cabinet);
        for input in 0..inputs.values.len() {
            put(all, call, &inputs, input);
        }
    }
}

/// Puts a large number in a place of an input, if it has symbols.
fn put(all: &mut Crosscheck, call: &Call, inputs: &Inputs, input: usize) {
    let mut large = inputs.clone();
    let Value::Symbols(symbols) = &mut large.values[input] else {
        return;
    };
    if symbols.is_empty() {
        return;
    }
    let random = &mut all.source.random;
    let place = random.place(symbols.len());
    symbols[place] = random.above();
    let looked_at = call.looks.at(inputs, input, place);
    let answer = all.run.compare(call, &large);
    all.run.count_large(call, looked_at);
    let holds = if looked_at {
        answer.refusal == 3
    } else {
        let without = (call.reference)(inputs);
        (answer.refusal, &answer.numbers) == (without.refusal, &without.numbers)
    };
    all.run.claim(holds, || {
        format!("{} {large}: {answer}, looked at: {looked_at}", call.name)
    });
}
