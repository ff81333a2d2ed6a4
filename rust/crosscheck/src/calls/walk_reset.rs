//! Starting a walk over a codeword's layers.

use super::{library_layout, reference_layout, Call, Looks};
use crate::answer::Answer;
use crate::cabinet::Cabinet;
use crate::field::in_field;
use crate::inputs::{Inputs, Kind, Value};
use crate::lent::Lent;
use crate::source::{Source, EITHER};

pub const CALL: Call = Call {
    name: "walk_reset",
    shape: &[Kind::Layout, Kind::Record],
    errors: EITHER,
    grounds: &[1],
    looks: Looks::AtNone,
    example,
    library,
    reference,
};

pub fn inputs(cabinet: &Cabinet, record: [u32; 3]) -> Inputs {
    cabinet.inputs([Value::Record(record)])
}

/// Any record is reset.
fn example(source: &mut Source, cabinet: &Cabinet) -> Inputs {
    let random = &mut source.random;
    inputs(cabinet, [(); 3].map(|()| random.word() as u32))
}

fn library(inputs: &Inputs) -> Answer {
    let before = library_record(inputs, 1);
    let layout = library_layout(inputs);
    let mut lent = Lent::record(before);
    let (reset, handed) = in_field!(inputs.field, {
        let reset = library::scrub_reset(layout, &mut lent.part_mut()[0]);
        (reset, library::scrub_reset_handed(layout, before))
    });
    both_forms(reset, &lent, handed, |()| [])
}

/// The answer of a call that was lent its record; the form of the call that is handed the record
/// and hands it back must answer alike.
pub fn both_forms<A: Copy + PartialEq, const N: usize>(
    answer: Result<A, gesarumbo::Refusal>,
    lent: &Lent<gesarumbo::ScrubRecord>,
    handed: (Result<A, gesarumbo::Refusal>, gesarumbo::ScrubRecord),
    numbers: fn(A) -> [i128; N],
) -> Answer {
    let record = lent.part()[0];
    let mut all = Answer::handing_back(answer.map(numbers), library_numbers(record));
    if handed != (answer, record) {
        all.spoilt
            .push("what the form with the record handed in answers");
    }
    if !lent.ends_kept() {
        all.spoilt.push("what lies around the record");
    }
    all
}

fn reference(inputs: &Inputs) -> Answer {
    let reset = in_field!(
        inputs.field,
        reference::scrub_reset(reference_layout::<F>(inputs))
    );
    let record = reset.unwrap_or_else(|_| reference_record(inputs, 1));
    Answer::handing_back(reset.map(|_| []), reference_numbers(record))
}

pub fn library_record(inputs: &Inputs, at: usize) -> gesarumbo::ScrubRecord {
    let [next, bad, first] = inputs.record(at);
    gesarumbo::ScrubRecord::new(next, bad, first)
}

pub fn reference_record(inputs: &Inputs, at: usize) -> reference::ScrubRecord {
    let [next, bad, first] = inputs.record(at);
    reference::ScrubRecord { next, bad, first }
}

pub fn library_numbers(record: gesarumbo::ScrubRecord) -> [u32; 3] {
    [record.next, record.bad, record.first]
}

pub fn reference_numbers(record: reference::ScrubRecord) -> [u32; 3] {
    [record.next, record.bad, record.first]
}
