//! With one lost tray a call for several is the call for one: both answer the
//! same and write the same, refused or not. With E = 1 there is no call for several.

use super::Draw;
use crate::crosscheck::Crosscheck;
use crate::pair::{for_one, PAIRS};
use crate::spoil::spoil;

pub const DRAW: Draw = Draw {
    name: "one lost tray",
    gate: 6_000,
    short: 60,
    case,
};

fn case(all: &mut Crosscheck) {
    let cabinet = all.source.cabinet(&[0]);
    let pair = all.source.random.pick(&PAIRS);
    let (inputs, same) = loop {
        let mut inputs = (pair.many.example)(&mut all.source, &cabinet);
        let times = all.source.random.pick(&[0, 0, 1, 2]);
        spoil(&mut all.source, &cabinet, &mut inputs, times);
        if let Some(same) = for_one(&inputs) {
            break (inputs, same);
        }
    };
    let several = all.run.compare(pair.many, &inputs);
    let single = all.run.compare(pair.one, &same);
    let holds = match inputs.errors() {
        1 => several.refusal == 1,
        _ => several == single,
    };
    all.run.claim(holds, || {
        format!("{} with one lost tray: {inputs}", pair.many.name)
    });
}
