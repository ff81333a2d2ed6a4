//! Testing a codeword some layers at a time.

use super::repair::budget;
use super::walk_reset::{both_forms, library_record, reference_numbers, reference_record};
use super::{library_layout, reference_layout, Call, Looks};
use crate::answer::Answer;
use crate::cabinet::Cabinet;
use crate::damage;
use crate::field::{in_field, Symbol};
use crate::inputs::{Inputs, Kind, Value};
use crate::lent::Lent;
use crate::random::Random;
use crate::source::{Source, EITHER};

pub const CALL: Call = Call {
    name: "walk",
    shape: &[Kind::Layout, Kind::Symbols, Kind::Record, Kind::Wide],
    errors: EITHER,
    grounds: &[1, 2, 3],
    looks: Looks::AtSome(looks),
    example,
    library,
    reference,
};

/// Where the record stands among the inputs.
pub const RECORD: usize = 2;

/// The numbers of the reports.
pub const UNFINISHED: i128 = 1;
pub const SOUND: i128 = 2;
pub const BAD: i128 = 3;

/// At the layers of this call.
fn looks(inputs: &Inputs, _: usize, place: usize) -> bool {
    let [racks, size, ..] = inputs.layout();
    let layers = inputs.symbols(1).len() as u64 / u64::from(racks * size);
    let layer = place as u64 % layers;
    let next = u64::from(inputs.record(RECORD)[0]);
    layer >= next && layer - next < inputs.wide(3)
}

pub fn inputs(cabinet: &Cabinet, codeword: Vec<Symbol>, record: [u32; 3], budget: u64) -> Inputs {
    cabinet.inputs([
        Value::Symbols(codeword),
        Value::Record(record),
        Value::Wide(budget),
    ])
}

/// A codeword with some bad layers, at times none or all of them.
pub fn codeword(random: &mut Random, cabinet: &Cabinet) -> Vec<Symbol> {
    if random.one_in(8) {
        return random.symbols(cabinet.field, cabinet.symbols());
    }
    let mut codeword = cabinet.codeword(random);
    for _ in 0..random.below(5) {
        let layer = random.below(cabinet.numbers.layers);
        let least = random.below(cabinet.numbers.checks);
        damage::least_broken(cabinet, random, &mut codeword, layer, least);
    }
    codeword
}

/// A record that is in order, whether or not it tells of a walk over the codeword.
fn record(random: &mut Random, cabinet: &Cabinet) -> [u32; 3] {
    let layers = cabinet.numbers.layers;
    let next = match random.below(4) {
        0 => 0,
        1 => layers,
        _ => random.below(layers + 1),
    };
    let any = random.below(next + 1);
    let bad = random.pick(&[0, next.min(1), any]);
    let first = if bad == 0 { layers } else { random.below(next) };
    [next, bad, first].map(|number| number as u32)
}

fn example(source: &mut Source, cabinet: &Cabinet) -> Inputs {
    let random = &mut source.random;
    let codeword = codeword(random, cabinet);
    let record = record(random, cabinet);
    let left = cabinet.numbers.layers as u64 - u64::from(record[0]);
    let budget = budget(random, left);
    inputs(cabinet, codeword, record, budget)
}

fn library(inputs: &Inputs) -> Answer {
    let before = library_record(inputs, RECORD);
    let (layout, budget) = (library_layout(inputs), inputs.wide(3));
    let mut lent = Lent::record(before);
    in_field!(inputs.field, {
        let codeword = inputs.lent::<F>(1);
        let scrubbed = library::scrub(layout, codeword.part(), &mut lent.part_mut()[0], budget);
        let handed = library::scrub_handed(layout, codeword.part(), before, budget);
        both_forms(scrubbed, &lent, handed, |report| [report_number(report)])
            .read("the codeword", &codeword)
    })
}

fn report_number(report: gesarumbo::Scrubbed) -> i128 {
    match report {
        gesarumbo::Scrubbed::Unfinished => UNFINISHED,
        gesarumbo::Scrubbed::Sound => SOUND,
        gesarumbo::Scrubbed::Bad => BAD,
    }
}

fn reference(inputs: &Inputs) -> Answer {
    let before = reference_record(inputs, RECORD);
    let budget = inputs.wide(3);
    let scrubbed = in_field!(inputs.field, {
        let layout = reference_layout::<F>(inputs);
        reference::scrub(layout, &inputs.given::<F>(1), before, budget)
    });
    let report = |(report, _)| match report {
        reference::Report::Unfinished => [UNFINISHED],
        reference::Report::Sound => [SOUND],
        reference::Report::Bad => [BAD],
    };
    let record = scrubbed.map_or(before, |(_, after)| after);
    Answer::handing_back(scrubbed.map(report), reference_numbers(record))
}
