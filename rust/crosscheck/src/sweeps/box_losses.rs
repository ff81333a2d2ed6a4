//! Every set of erased trays of the sixteen-tray box: at most nine come back,
//! and the data with them; more are refused with 5; and with at most eight
//! erased, one survivor that is changed is refused with 8.

use super::Sweep;
use crate::calls::sixteen::{data, difference, erase, recover, store, symbols};
use crate::calls::Call;
use crate::crosscheck::Crosscheck;
use crate::inputs::Inputs;
use reference::sixteen::{DIMENSION, MOST_ERASED, TRAYS};

/// An item is a set of trays, by its bits.
pub const SWEEP: Sweep = Sweep {
    name: "box losses",
    items: |_| 1 << TRAYS,
    short_step: 151,
    item,
};

fn item(all: &mut Crosscheck, set: usize) {
    let listed = |tray: &u32| set >> tray & 1 == 1;
    let (erased, survivors): (Vec<u32>, Vec<u32>) = (0..TRAYS as u32).partition(listed);
    let random = &mut all.source.random;
    let given = symbols(random, DIMENSION);
    let stored = store::inputs(random, given.clone());
    let word = all.run.compare(&store::CALL, &stored).bytes().to_vec();
    let random = &mut all.source.random;
    let lost = erase(random, word.clone(), &erased);
    if erased.len() > MOST_ERASED {
        let asked = data::inputs(random, &lost);
        answered(all, &recover::CALL, &lost, (5, lost.bytes(0)));
        answered(all, &data::CALL, &asked, (5, asked.bytes(2)));
        return;
    }
    let asked = data::inputs(random, &lost);
    answered(all, &recover::CALL, &lost, (0, &word));
    answered(all, &data::CALL, &asked, (0, &given));
    if erased.len() < MOST_ERASED {
        let random = &mut all.source.random;
        let mut damaged = word;
        damaged[random.pick(&survivors) as usize] ^= difference(random);
        let lost = erase(random, damaged, &erased);
        answered(all, &recover::CALL, &lost, (8, lost.bytes(0)));
    }
}

/// Claims the ground and what the buffer holds afterwards.
fn answered(all: &mut Crosscheck, call: &Call, inputs: &Inputs, expected: (u32, &[u8])) {
    let answer = all.run.compare(call, inputs);
    all.run
        .claim((answer.refusal, answer.bytes()) == expected, || {
            format!("{} {inputs}: {answer}, not {expected:?}", call.name)
        });
}
