//! Walks begun by a reset, with refused calls between, looked at after every
//! call: the record tells of the layers below its next, and the report says so.

use super::Draw;
use crate::answer::Answer;
use crate::cabinet::Cabinet;
use crate::calls::repair::budget;
use crate::calls::walk::{self, BAD, SOUND, UNFINISHED};
use crate::calls::{walk_reset, Call};
use crate::crosscheck::Crosscheck;
use crate::field::{in_field, symbols, Symbol};
use crate::inputs::{Inputs, Value};
use crate::source::{Source, EITHER};
use crate::spoil::spoil;
use reference::scrub::bad_layers;

pub const DRAW: Draw = Draw {
    name: "walks",
    gate: 4_000,
    short: 60,
    case,
};

/// The most calls after a reset.
const MOST_CALLS: usize = 12;

/// A walk as far as it has come.
struct Walk {
    cabinet: Cabinet,
    codeword: Vec<Symbol>,
    /// The codeword's bad layers, rising.
    bad: Vec<usize>,
    record: [u32; 3],
}

fn case(all: &mut Crosscheck) {
    let cabinet = all.source.cabinet(EITHER);
    let mut walk = Walk::start(all, cabinet);
    for _ in 0..all.source.random.below(MOST_CALLS + 1) {
        if all.source.random.one_in(3) {
            walk.refused_call(all);
        } else {
            walk.done_call(all);
        }
    }
}

impl Walk {
    fn start(all: &mut Crosscheck, cabinet: Cabinet) -> Walk {
        let random = &mut all.source.random;
        let codeword = walk::codeword(random, &cabinet);
        let reset = walk_reset::inputs(&cabinet, [(); 3].map(|()| random.word() as u32));
        let answer = all.run.compare(&walk_reset::CALL, &reset);
        let layers = cabinet.numbers.layers;
        let walk = Walk {
            cabinet,
            bad: in_field!(cabinet.field, {
                bad_layers::<F>(cabinet.numbers, &symbols::<F>(&codeword), 0..layers)
            }),
            codeword,
            record: record_of(&answer),
        };
        all.run.claim(walk.record == [0, 0, layers as u32], || {
            format!("a reset gave {:?}", walk.record)
        });
        walk
    }

    /// Raises the next layer by the budget, or by what is left.
    fn done_call(&mut self, all: &mut Crosscheck) {
        let left = self.cabinet.numbers.layers as u64 - u64::from(self.record[0]);
        let budget = budget(&mut all.source.random, left);
        let codeword = self.codeword.clone();
        let inputs = walk::inputs(&self.cabinet, codeword, self.record, budget);
        let answer = all.run.compare(&walk::CALL, &inputs);
        let next = self.record[0] + budget.min(left) as u32;
        let expected = [self.report(next), self.told(next).map(i128::from).to_vec()].concat();
        all.run
            .claim(answer.refusal == 0 && answer.numbers == expected, || {
                format!("a walk over {:?}: {answer}", self.cabinet.layout)
            });
        self.record = record_of(&answer);
    }

    /// A refused call or reset, over this record and anything else.
    fn refused_call(&mut self, all: &mut Crosscheck) {
        let (call, inputs) = refused(&mut all.source, &self.cabinet, self.record);
        let answer = all.run.compare(call, &inputs);
        let kept = answer.refusal != 0 && record_of(&answer) == self.record;
        all.run.claim(kept, || {
            format!("a refused call changed the record: {inputs}")
        });
    }

    /// The record that tells of the layers below this one.
    fn told(&self, next: u32) -> [u32; 3] {
        let layers = self.cabinet.numbers.layers;
        let seen: Vec<usize> = self
            .bad
            .iter()
            .copied()
            .filter(|&layer| layer < next as usize)
            .collect();
        let first = seen.first().copied().unwrap_or(layers);
        [next, seen.len() as u32, first as u32]
    }

    fn report(&self, next: u32) -> Vec<i128> {
        vec![match self.bad.is_empty() {
            _ if (next as usize) < self.cabinet.numbers.layers => UNFINISHED,
            true => SOUND,
            false => BAD,
        }]
    }
}

/// The record that an answer hands back: its last three numbers.
fn record_of(answer: &Answer) -> [u32; 3] {
    let at = answer.numbers.len() - 3;
    [at, at + 1, at + 2].map(|at| u32::try_from(answer.numbers[at]).expect("a number of 32 bits"))
}

/// A call that is refused, given this record and anything else, at times
/// another layout.
fn refused(source: &mut Source, own: &Cabinet, record: [u32; 3]) -> (&'static Call, Inputs) {
    loop {
        let cabinet = if source.random.one_in(4) {
            source.cabinet_of(own.field, EITHER)
        } else {
            *own
        };
        let (call, at) = match source.random.below(3) {
            0 => (&walk_reset::CALL, 1),
            _ => (&walk::CALL, walk::RECORD),
        };
        let mut inputs = (call.example)(source, &cabinet);
        let times = 1 + source.random.below(3);
        spoil(source, &cabinet, &mut inputs, times);
        inputs.values[at] = Value::Record(record);
        if (call.reference)(&inputs).refusal != 0 {
            return (call, inputs);
        }
    }
}
