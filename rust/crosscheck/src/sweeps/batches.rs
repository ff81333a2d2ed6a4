//! Batches of no codeword, one, two and three, and of as many as a block ends beside,
//! held against the library's own call for one codeword; and numbers of codewords that
//! the buffers do not have, among them such whose products with the lengths are right
//! in 64 or in 32 bits only: refused with 2.

use super::Sweep;
use crate::batches::compare;
use crate::cabinet::Cabinet;
use crate::calls::batch::{batches, beside_end, Batch, MANY};
use crate::crosscheck::Crosscheck;
use crate::inputs::{Inputs, Value};
use crate::source::Source;

/// An item is a layout.
pub const SWEEP: Sweep = Sweep {
    name: "batches",
    items: |source| cabinets(source).count(),
    short_step: 60,
    item,
};

/// Of the layouts with one layer, one in so many, by E.
const FLAT_STEPS: [usize; 2] = [20, 100];
/// A batch has at most about so many symbols.
const MOST_SYMBOLS: usize = 20_000;
/// One layout in so many is put numbers that its buffers do not have.
const WRONG_STEP: usize = 8;

fn cabinets(source: &Source) -> impl Iterator<Item = Cabinet> + '_ {
    let [plain, wary] = FLAT_STEPS;
    source.small(0, plain).chain(source.small(1, wary))
}

fn item(all: &mut Crosscheck, at: usize) {
    let cabinet = cabinets(&all.source).nth(at).expect("an item is a layout");
    let for_layout = |batch: &&&Batch| batch.many.errors.contains(&cabinet.errors());
    for batch in batches(cabinet.field).iter().filter(for_layout) {
        let most = 4 + MOST_SYMBOLS / cabinet.symbols();
        let end = beside_end(&mut all.source.random).min(most);
        for many in [0, 1, 2, 3, end] {
            let inputs = (batch.draw)(&mut all.source, &cabinet, many);
            compare(all, batch, &cabinet, &inputs);
            if many <= 2 && at.is_multiple_of(WRONG_STEP) {
                wrong_numbers(all, batch, inputs);
            }
        }
    }
}

/// Every power of two more or less than there are codewords, and the greatest numbers.
fn wrong_numbers(all: &mut Crosscheck, batch: &Batch, mut inputs: Inputs) {
    let many = inputs.wide(MANY);
    let powers = (0..64).map(|power| 1u64 << power);
    let beside = powers.flat_map(|power| [many.wrapping_add(power), many.wrapping_sub(power)]);
    let thirds = [u64::MAX / 3, u64::MAX / 3 + 1, u64::MAX / 5, u64::MAX / 17];
    for other in beside.chain(thirds) {
        inputs.values[MANY] = Value::Wide(other);
        let answer = all.run.compare(batch.many, &inputs);
        all.run.claim(answer.refusal == 2, || {
            format!("{} {inputs}: {answer}, not 2", batch.many.name)
        });
    }
}
