//! Testing a codeword of which trays are missing.

use super::{library_layout, recover, recover_correcting, reference_layout, Call, Looks};
use crate::answer::Answer;
use crate::field::in_field;
use crate::inputs::{Inputs, Kind};
use crate::lent::Lent;
use crate::source::EITHER;

pub const CALL: Call = Call {
    name: "test_kept",
    shape: &[Kind::Layout, Kind::Symbols, Kind::List],
    errors: EITHER,
    grounds: &[1, 2, 3, 4, 5],
    looks: Looks::AtSome(recover::looks),
    example: recover_correcting::CALL.example,
    library,
    reference,
};

/// The answer's numbers: the verdict, the first bad layer and the checks left.
fn numbers(bad: Option<u32>, checks: u32) -> [i128; 3] {
    match bad {
        None => [1, 0, i128::from(checks)],
        Some(layer) => [2, i128::from(layer), i128::from(checks)],
    }
}

fn library(inputs: &Inputs) -> Answer {
    let erased = Lent::list(inputs.list(2), gesarumbo::Tray::new);
    let layout = library_layout(inputs);
    let kept = |kept| match kept {
        gesarumbo::Kept::Sound { checks } => numbers(None, checks),
        gesarumbo::Kept::Bad { layer, checks } => numbers(Some(layer.number()), checks),
    };
    in_field!(inputs.field, {
        let codeword = inputs.lent::<F>(1);
        let tested = library::test_kept(layout, codeword.part(), erased.part());
        Answer::new(tested.map(kept))
            .read("the codeword", &codeword)
            .read("the erased list", &erased)
    })
}

fn reference(inputs: &Inputs) -> Answer {
    let erased = recover::reference_trays(inputs);
    let kept = in_field!(inputs.field, {
        let layout = reference_layout::<F>(inputs);
        reference::test_kept(layout, &inputs.given::<F>(1), &erased)
    });
    Answer::new(kept.map(|kept| numbers(kept.bad.map(|layer| layer.0), kept.checks)))
}
