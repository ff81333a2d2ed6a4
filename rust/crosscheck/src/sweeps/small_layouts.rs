//! Every call over every small layout with several layers and over some others:
//! good, and spoilt once and twice. A call that is not for the layout's E gets 1.

use super::Sweep;
use crate::cabinet::Cabinet;
use crate::calls::calls;
use crate::crosscheck::Crosscheck;
use crate::source::Source;
use crate::spoil::spoil;

pub const SWEEP: Sweep = Sweep {
    name: "small layouts",
    items: |source| cabinets(source).count(),
    short_step: 80,
    item,
};

/// Of the layouts with one layer, one in so many, by E.
const FLAT_STEPS: [usize; 2] = [2, 7];

fn cabinets(source: &Source) -> impl Iterator<Item = Cabinet> + '_ {
    let [plain, wary] = FLAT_STEPS;
    source.small(0, plain).chain(source.small(1, wary))
}

fn item(all: &mut Crosscheck, at: usize) {
    let cabinet = cabinets(&all.source).nth(at).expect("an item is a layout");
    for call in calls(cabinet.field) {
        if !call.errors.contains(&cabinet.errors()) {
            let inputs = (call.example)(&mut all.source, &cabinet);
            let answer = all.run.compare(call, &inputs);
            all.run.claim(answer.refusal == 1, || {
                format!("{} is not for {:?}: {answer}", call.name, cabinet.layout)
            });
            continue;
        }
        for times in 0..3 {
            let mut inputs = (call.example)(&mut all.source, &cabinet);
            spoil(&mut all.source, &cabinet, &mut inputs, times);
            all.run.compare(call, &inputs);
        }
    }
}
