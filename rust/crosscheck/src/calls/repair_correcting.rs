//! Repairing a lost tray from shares of which one may be wrong.

use super::repair::{HOST, SHARES, SPARE};
use super::{library_layout, reference_layout, Call, Looks};
use crate::answer::Answer;
use crate::cabinet::Cabinet;
use crate::field::in_field;
use crate::given::Given;
use crate::inputs::{Inputs, Kind};
use crate::lent::{Guarded, Lent};
use crate::source::Source;

pub const CALL: Call = Call {
    name: "repair_wrong",
    shape: &[
        Kind::Layout,
        Kind::Small,
        Kind::List,
        Kind::Symbols,
        Kind::Symbols,
        Kind::Symbols,
    ],
    errors: &[1],
    grounds: &[1, 2, 3, 4, 5, 6, 14],
    looks: Looks::AtSome(looks),
    example,
    library,
    reference,
};

/// At the shares, and at the sound trays of the host rack.
fn looks(inputs: &Inputs, at: usize, place: usize) -> bool {
    let [_, size, ..] = inputs.layout();
    let layers = inputs.symbols(HOST).len() / size as usize;
    match at {
        SHARES => true,
        HOST => place / layers != (inputs.small(1) % size) as usize,
        _ => false,
    }
}

/// The shares of a codeword, or any; of these none are wrong, or one, or two, in
/// one symbol, in all or in some.
fn example(source: &mut Source, cabinet: &Cabinet) -> Inputs {
    let random = &mut source.random;
    let (helpers, groups) = (cabinet.numbers.helpers, cabinet.numbers.groups);
    let lost = cabinet.lost(random, 1);
    let mut given = Given::draw(random, cabinet, lost);
    let wrong = random.pick(&[0, 1, 1, 1, 2]).min(helpers);
    for helper in random.some_of(wrong, (0..helpers as u32).collect()) {
        let some = 1 + random.below(groups);
        let count = random.pick(&[1, groups, some]);
        let wrong = random.some_of(count, (0..groups as u32).collect());
        given.spoil_share(random, helper as usize, &wrong);
    }
    let spare = given.spare(random);
    given.all_groups(random, &spare)
}

fn library(inputs: &Inputs) -> Answer {
    in_field!(
        inputs.field,
        library_answer::<F>(inputs, library::repair_correcting)
    )
}

/// What the library answers over a field; no rack named is number B.
fn library_answer<F: reference::Field<Symbol: Guarded>>(
    inputs: &Inputs,
    call: impl FnOnce(
        gesarumbo::Layout,
        gesarumbo::Tray,
        &[gesarumbo::Rack],
        &[F::Symbol],
        &[F::Symbol],
        &mut [F::Symbol],
    ) -> Result<gesarumbo::Corrected, gesarumbo::Refusal>,
) -> Answer {
    let (layout, lost) = (
        library_layout(inputs),
        gesarumbo::Tray::new(inputs.small(1)),
    );
    let helpers = Lent::list(inputs.list(2), gesarumbo::Rack::new);
    let [shares, host] = [SHARES, HOST].map(|at| inputs.lent::<F>(at));
    let mut spare = inputs.lent::<F>(SPARE);
    let (from, own) = (shares.part(), host.part());
    let corrected = call(layout, lost, helpers.part(), from, own, spare.part_mut());
    let numbers = |done: gesarumbo::Corrected| {
        let rack = done.rack.map_or(layout.racks, gesarumbo::Rack::number);
        [i128::from(rack), i128::from(done.crossed)]
    };
    Answer::new(corrected.map(numbers))
        .written(inputs.field, &spare)
        .read("the helper list", &helpers)
        .read("the shares", &shares)
        .read("the host rack", &host)
}

fn reference(inputs: &Inputs) -> Answer {
    in_field!(inputs.field, reference_answer::<F>(inputs))
}

fn reference_answer<F: reference::Field>(inputs: &Inputs) -> Answer {
    let racks = inputs.list(2).iter().copied();
    let helpers: Vec<reference::Rack> = racks.map(reference::Rack).collect();
    let [shares, host, spare] = [SHARES, HOST, SPARE].map(|at| inputs.given::<F>(at));
    let given = reference::Given {
        lost: reference::Tray(inputs.small(1)),
        helpers: &helpers,
        shares: &shares,
        host: &host,
    };
    let corrected = reference::repair_correcting(reference_layout::<F>(inputs), given, &spare);
    let after = corrected.as_ref().ok().map(|done| done.spare.clone());
    Answer::new(corrected.map(|done| [i128::from(done.rack.0), i128::from(done.crossed)])).lent(
        inputs.field,
        inputs.symbols(SPARE),
        after.as_deref(),
    )
}
