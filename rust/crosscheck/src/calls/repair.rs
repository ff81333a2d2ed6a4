//! Repairing a lost tray, whole or a piece.

use super::{library_layout, reference_layout, Call, Looks};
use crate::answer::Answer;
use crate::cabinet::Cabinet;
use crate::field::in_field;
use crate::given::Given;
use crate::inputs::{Inputs, Kind};
use crate::lent::{Guarded, Lent};
use crate::pair::for_one;
use crate::random::Random;
use crate::source::Source;

pub const CALL: Call = Call {
    name: "repair",
    shape: &[
        Kind::Layout,
        Kind::Small,
        Kind::List,
        Kind::Symbols,
        Kind::Symbols,
        Kind::Symbols,
        Kind::Wide,
        Kind::Wide,
    ],
    errors: &[0],
    grounds: &[1, 2, 3, 4, 5, 6, 7],
    looks: Looks::AtSome(|inputs, at, place| looks(inputs, &[inputs.small(1)], at, place)),
    example,
    library,
    reference,
};

pub const SHARES: usize = 3;
pub const HOST: usize = 4;
pub const SPARE: usize = 5;

/// A budget: none, all there is, one more, the most that can be said, or some.
pub fn budget(random: &mut Random, left: u64) -> u64 {
    match random.below(8) {
        0 => 0,
        1 => left,
        2 => left + 1,
        3 => u64::MAX,
        4 => 1,
        _ => random.below(left as usize + 1) as u64,
    }
}

/// In its own groups, at the share symbols and at the sound trays of the host
/// rack; with no lost tray at nothing. The lost trays must be of one rack.
pub fn looks(inputs: &Inputs, lost: &[u32], at: usize, place: usize) -> bool {
    let cabinet = Cabinet::named(inputs.field, inputs.layout());
    let (groups, layers) = (cabinet.numbers.groups, cabinet.numbers.layers);
    let Some(&one) = lost.first() else {
        return false;
    };
    let host = cabinet.rack_of(one);
    let [first, budget] = [6, 7].map(|at| inputs.wide(at));
    let own = |group: usize| group as u64 >= first && group as u64 - first < budget;
    match at {
        SHARES => own(place % groups),
        HOST => {
            let tray = host * cabinet.layout[1] + (place / layers) as u32;
            let group = cabinet.numbers.group(host as usize, place % layers);
            !lost.contains(&tray) && own(group)
        }
        _ => false,
    }
}

fn example(source: &mut Source, cabinet: &Cabinet) -> Inputs {
    let random = &mut source.random;
    let lost = cabinet.lost(random, 1);
    let piece = Given::draw(random, cabinet, lost).some_piece(random);
    for_one(&piece).expect("one is lost")
}

/// What the library answers over a field, by one of its two repair calls.
pub fn library_answer<F: reference::Field<Symbol: Guarded>>(
    inputs: &Inputs,
    call: impl FnOnce(
        &[gesarumbo::Rack],
        &[F::Symbol],
        &[F::Symbol],
        &mut [F::Symbol],
    ) -> Result<gesarumbo::Repaired, gesarumbo::Refusal>,
) -> Answer {
    let helpers = Lent::list(inputs.list(2), gesarumbo::Rack::new);
    let [shares, host] = [SHARES, HOST].map(|at| inputs.lent::<F>(at));
    let mut spare = inputs.lent::<F>(SPARE);
    let repaired = call(helpers.part(), shares.part(), host.part(), spare.part_mut());
    Answer::new(repaired.map(|done| [done.groups, done.crossed, done.remaining].map(i128::from)))
        .written(inputs.field, &spare)
        .read("the helper list", &helpers)
        .read("the shares", &shares)
        .read("the host rack", &host)
}

/// What the second program answers over a field, with these lost trays or by the
/// call for one.
pub fn reference_answer<F: reference::Field>(inputs: &Inputs, lost: Option<&[u32]>) -> Answer {
    let layout = reference_layout::<F>(inputs);
    let racks = inputs.list(2).iter().copied();
    let helpers: Vec<reference::Rack> = racks.map(reference::Rack).collect();
    let [shares, host, spare] = [SHARES, HOST, SPARE].map(|at| inputs.given::<F>(at));
    let [first, budget] = [6, 7].map(|at| inputs.wide(at));
    let (helpers, shares, host) = (&helpers[..], &shares[..], &host[..]);
    let repaired = match lost {
        Some(lost) => {
            let lost: Vec<_> = lost.iter().copied().map(reference::Tray).collect();
            let given = reference::GivenMany {
                lost: &lost,
                helpers,
                shares,
                host,
            };
            reference::repair_many(layout, given, &spare, first, budget)
        }
        None => {
            let given = reference::Given {
                lost: reference::Tray(inputs.small(1)),
                helpers,
                shares,
                host,
            };
            reference::repair(layout, given, &spare, first, budget)
        }
    };
    let after = repaired.as_ref().ok().map(|done| done.spare.clone());
    Answer::new(repaired.map(|done| [done.groups, done.crossed, done.remaining].map(i128::from)))
        .lent(inputs.field, inputs.symbols(SPARE), after.as_deref())
}

fn library(inputs: &Inputs) -> Answer {
    let layout = library_layout(inputs);
    let lost = gesarumbo::Tray::new(inputs.small(1));
    let [first, budget] = [6, 7].map(|at| inputs.wide(at));
    in_field!(
        inputs.field,
        library_answer::<F>(inputs, |helpers, shares, host, spare| {
            library::repair(layout, lost, helpers, shares, host, spare, first, budget)
        })
    )
}

fn reference(inputs: &Inputs) -> Answer {
    in_field!(inputs.field, reference_answer::<F>(inputs, None))
}
