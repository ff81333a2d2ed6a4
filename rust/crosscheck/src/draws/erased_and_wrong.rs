//! One codeword with erased trays and perhaps wrong ones, put to recovery, to the
//! recovery that corrects and to the test with trays missing: the three agree, on
//! every ground, and a tray that is named is the only survivor that was changed.

use super::Draw;
use crate::answer::Answer;
use crate::cabinet::Cabinet;
use crate::calls::{recover, recover_correcting, test, test_kept};
use crate::crosscheck::Crosscheck;
use crate::inputs::{Inputs, Value};
use crate::source::EITHER;
use crate::spoil::spoil;

pub const DRAW: Draw = Draw {
    name: "erased and wrong trays",
    gate: 8_000,
    short: 120,
    case,
};

fn case(all: &mut Crosscheck) {
    let cabinet = all.source.cabinet(EITHER);
    let mut inputs = (recover_correcting::CALL.example)(&mut all.source, &cabinet);
    let times = all.source.random.pick(&[0, 0, 0, 1, 2]);
    spoil(&mut all.source, &cabinet, &mut inputs, times);
    let plain = all.run.compare(&recover::CALL, &inputs);
    let correcting = all.run.compare(&recover_correcting::CALL, &inputs);
    let kept = all.run.compare(&test_kept::CALL, &inputs);
    let agree = match plain.refusal {
        0 => as_recovered(&inputs, &plain, &correcting, &kept),
        8 => kept.refusal == 0 && kept.numbers[0] == 2,
        ground => [&correcting, &kept].map(|answer| answer.refusal) == [ground; 2],
    };
    all.run
        .claim(agree, || format!("{inputs}: {plain}, {correcting}, {kept}"));
    if plain.refusal == 8 && correcting.refusal == 0 {
        named(all, &inputs, &correcting);
    }
    if inputs.list(2).is_empty() {
        none_listed(all, &inputs, &kept);
    }
}

/// Where a recovery is done, the one that corrects does the same and names no tray,
/// and the test finds nothing; both say how many checks were left.
fn as_recovered(inputs: &Inputs, plain: &Answer, correcting: &Answer, kept: &Answer) -> bool {
    let cabinet = Cabinet::named(inputs.field, inputs.layout());
    let checks = (cabinet.numbers.checks - inputs.list(2).len()) as i128;
    correcting.refusal == 0
        && correcting.numbers == [cabinet.numbers.trays as i128, checks]
        && correcting.symbols() == plain.symbols()
        && kept.refusal == 0
        && kept.numbers == [1, 0, checks]
}

/// A tray that is named is not listed; the survivors change there and nowhere else;
/// with it listed too a recovery gives the same, and that is sound.
fn named(all: &mut Crosscheck, inputs: &Inputs, correcting: &Answer) {
    let cabinet = Cabinet::named(inputs.field, inputs.layout());
    let tray = correcting.numbers[0] as u32;
    let mut listed = inputs.list(2).to_vec();
    let fresh = (tray as usize) < cabinet.numbers.trays && !listed.contains(&tray);
    listed.push(tray);
    listed.sort();
    let (before, after) = (inputs.symbols(1), correcting.symbols());
    let kept = cabinet.tray_numbers().into_iter().all(|own| {
        let place = cabinet.tray(own);
        listed.contains(&own) || before[place.clone()] == after[place]
    });
    let changed = fresh && before[cabinet.tray(tray)] != after[cabinet.tray(tray)];
    let again = cabinet.inputs([Value::Symbols(before.to_vec()), Value::List(listed)]);
    let again = all.run.compare(&recover::CALL, &again);
    let tested = test::inputs(&cabinet, after.to_vec());
    let tested = all.run.compare(&test::CALL, &tested);
    let sound = again.refusal == 0 && again.symbols() == after && tested.numbers[0] == 1;
    all.run.claim(kept && changed && sound, || {
        format!("recover_correcting {inputs}: {correcting}")
    });
}

/// With none listed the test is that of a whole codeword.
fn none_listed(all: &mut Crosscheck, inputs: &Inputs, kept: &Answer) {
    let mut whole = inputs.clone();
    whole.values.truncate(2);
    let tested = all.run.compare(&test::CALL, &whole);
    let holds = tested.refusal == kept.refusal && tested.numbers[..2] == kept.numbers[..2];
    all.run
        .claim(holds, || format!("test {whole}: {tested}, {kept}"));
}
