//! Reading while a lost tray is being repaired.

use super::{library_layout, reference_layout, Call, Looks};
use crate::answer::Answer;
use crate::cabinet::Cabinet;
use crate::field::{in_field, Symbol};
use crate::inputs::{Inputs, Kind, Value};
use crate::random::Random;
use crate::source::Source;

pub const CALL: Call = Call {
    name: "read_part",
    shape: &[
        Kind::Layout,
        Kind::Symbols,
        Kind::Symbols,
        Kind::Small,
        Kind::Wide,
        Kind::Small,
        Kind::Small,
        Kind::Small,
    ],
    errors: &[0],
    grounds: &[1, 2, 3, 13],
    looks: Looks::AtNone,
    example,
    library,
    reference,
};

/// The inputs of a read of a random run of a tray, the lost one half of the
/// time, where so many groups are done.
pub fn inputs(
    random: &mut Random,
    cabinet: &Cabinet,
    codeword: &[Symbol],
    spare: &[Symbol],
    lost: u32,
    done: u64,
) -> Inputs {
    let (trays, layers) = (cabinet.numbers.trays, cabinet.numbers.layers);
    let tray = if random.one_in(2) {
        lost
    } else {
        random.below(trays) as u32
    };
    let first = random.below(layers + 1);
    let longest = match random.below(4) {
        0 => layers - first,
        _ => (layers - first).min(3),
    };
    let end = first + random.below(longest + 1);
    cabinet.inputs([
        Value::Symbols(codeword.to_vec()),
        Value::Symbols(spare.to_vec()),
        Value::Small(lost),
        Value::Wide(done),
        Value::Small(tray),
        Value::Small(first as u32),
        Value::Small(end as u32),
    ])
}

fn example(source: &mut Source, cabinet: &Cabinet) -> Inputs {
    let random = &mut source.random;
    let codeword = random.noise(cabinet.field, cabinet.symbols());
    let spare = random.noise(cabinet.field, cabinet.numbers.layers);
    let lost = random.below(cabinet.numbers.trays) as u32;
    let groups = cabinet.numbers.groups;
    let done = match random.below(4) {
        0 => groups,
        _ => random.below(groups + 1),
    };
    inputs(random, cabinet, &codeword, &spare, lost, done as u64)
}

/// Where a part comes from, its place there and its length; 1 is the codeword.
fn place<S>(part: &[S], codeword: &[S], spare: &[S]) -> [i128; 3] {
    let at = part.as_ptr();
    let in_codeword = codeword.as_ptr_range().contains(&at) || at == codeword.as_ptr_range().end;
    let (source, buffer) = if in_codeword {
        (1, codeword)
    } else {
        (2, spare)
    };
    let bytes = (at as usize).wrapping_sub(buffer.as_ptr() as usize);
    let offset = bytes / size_of::<S>();
    [source, offset as i128, part.len() as i128]
}

fn library(inputs: &Inputs) -> Answer {
    let [lost, tray] = [3, 5].map(|at| gesarumbo::Tray::new(inputs.small(at)));
    let [first, end] = [6, 7].map(|at| inputs.small(at));
    let (layout, groups) = (library_layout(inputs), inputs.wide(4));
    in_field!(inputs.field, {
        let [codeword, spare] = [1, 2].map(|at| inputs.lent::<F>(at));
        let (store, spared) = (codeword.part(), spare.part());
        let read = library::read_part(layout, store, spared, lost, groups, tray, first..end);
        let part = read.unwrap_or(&[]);
        Answer::new(read.map(|part| place(part, store, spared)))
            .part(inputs.field, part)
            .read("the codeword", &codeword)
            .read("the spare", &spare)
    })
}

fn reference(inputs: &Inputs) -> Answer {
    in_field!(inputs.field, reference_in::<F>(inputs))
}

fn reference_in<F: reference::Field>(inputs: &Inputs) -> Answer {
    let read = reference::read_part(
        reference_layout::<F>(inputs),
        &inputs.given::<F>(1),
        &inputs.given::<F>(2),
        reference::Tray(inputs.small(3)),
        inputs.wide(4),
        reference::Asked {
            tray: reference::Tray(inputs.small(5)),
            first: inputs.small(6),
            end: inputs.small(7),
        },
    );
    let symbols = read.as_ref().map_or(vec![], |part| part.symbols.clone());
    let numbers = |part: reference::Part<F::Symbol>| {
        let source = match part.source {
            reference::Source::Store => 1,
            reference::Source::Spare => 2,
        };
        [source, part.offset as i128, part.symbols.len() as i128]
    };
    Answer::new(read.map(numbers)).part(inputs.field, &symbols)
}
