//! Reading while repairing: what is handed back is the codeword's.

use super::Draw;
use crate::calls::{read_part, Call};
use crate::crosscheck::Crosscheck;
use crate::given::Given;
use crate::inputs::Inputs;

pub const DRAW: Draw = Draw {
    name: "reading while repairing",
    gate: 3_000,
    short: 60,
    case,
};

/// A repair of a codeword's tray up to some group, and reads that are told as
/// much of it or less.
fn case(all: &mut Crosscheck) {
    let cabinet = all.source.cabinet(&[0]);
    let random = &mut all.source.random;
    let codeword = cabinet.codeword(random);
    let lost = random.below(cabinet.numbers.trays) as u32;
    let share = |call: &Call, inputs: &Inputs| (call.reference)(inputs);
    let given = Given::of_codeword(random, &cabinet, &codeword, vec![lost], share);
    let far = random.below(cabinet.numbers.groups + 1) as u64;
    let spare = given.spare(random);
    let (call, piece) = given.piece(random, &spare, 0, far);
    let spare = (call.library)(&piece).symbols().to_vec();
    let mut store = codeword.clone();
    let noise = random.noise(cabinet.field, cabinet.numbers.layers);
    store[cabinet.tray(lost)].copy_from_slice(&noise);
    for _ in 0..8 {
        let random = &mut all.source.random;
        let done = random.below(far as usize + 1) as u64;
        let inputs = read_part::inputs(random, &cabinet, &store, &spare, lost, done);
        let answer = all.run.compare(&read_part::CALL, &inputs);
        let tray = &codeword[cabinet.tray(inputs.small(5))];
        let run = &tray[inputs.small(6) as usize..inputs.small(7) as usize];
        let holds = answer.refusal == 13 || answer.refusal == 0 && answer.symbols() == run;
        all.run
            .claim(holds, || format!("a read while repairing: {inputs}"));
    }
}
