//! Repair cards: the multipliers that turn the d share symbols of a group into
//! the s host rack sums.

use crate::checks::Checks;
use crate::field::Field;
use crate::layout::{Layout, Numbers, Rack, Tray};
use crate::refusal::{refuse, rising, Refusal};
use crate::repair::{refuse_given, Given, GivenMany, Repair, Repaired};

/// What the d·s places lent hold afterwards: the multipliers that follow from
/// the checks of the group.
pub fn card<F: Field>(
    layout: Layout<F>,
    lost: Tray,
    helpers: &[Rack],
    group: u64,
    places: &[F::Symbol],
) -> Result<Vec<F::Symbol>, Refusal> {
    let numbers = layout.numbers_with(0)?;
    refuse_card(&numbers, lost, helpers, group, places.len(), true)?;
    let host = lost.0 as usize / numbers.size;
    let given = GivenMany {
        lost: &[lost],
        helpers,
        shares: &[],
        host: &[],
    };
    let layers = &numbers.layers_of_groups(host)[group as usize];
    let multipliers = Repair::<F>::new(numbers, given, None).multipliers(layers);
    Ok(multipliers.concat())
}

/// Accepts a card exactly when its multipliers give the host rack sums of every
/// codeword of the layout.
pub fn card_test<F: Field>(
    layout: Layout<F>,
    lost: Tray,
    helpers: &[Rack],
    card: &[F::Symbol],
    group: u64,
) -> Result<(), Refusal> {
    let numbers = layout.numbers_with(0)?;
    let in_range = F::are_symbols(card);
    refuse_card(&numbers, lost, helpers, group, card.len(), in_range)?;
    let right = is_right::<F>(&numbers, lost, helpers, card, group as usize);
    refuse(&[(Refusal::Card, !right)])
}

/// The repair of one group by a card: as a repair's piece, but that the host rack
/// sums are those of the card.
pub fn card_repair<F: Field>(
    layout: Layout<F>,
    given: Given<F::Symbol>,
    card: &[F::Symbol],
    spare: &[F::Symbol],
    group: u64,
) -> Result<Repaired<F::Symbol>, Refusal> {
    let numbers = layout.numbers_with(0)?;
    refuse(&[(Refusal::Length, card.len() != card_length(&numbers))])?;
    let lost = [given.lost];
    let many = given.as_many(&lost);
    let outside = group >= numbers.groups as u64;
    // A group that is none has no symbols to look at.
    let piece = match outside {
        true => 0..0,
        false => group as usize..group as usize + 1,
    };
    let by_number = outside || !F::are_symbols(card);
    let ground = refuse_given::<F>(&numbers, many, spare, piece);
    match ground {
        Err(Refusal::Length) => return Err(Refusal::Length),
        _ if by_number => return Err(Refusal::Number),
        ground => ground?,
    }
    let group = group as usize;
    let right = is_right::<F>(&numbers, given.lost, given.helpers, card, group);
    refuse(&[(Refusal::Card, !right)])?;
    Ok(Repaired {
        groups: 1,
        crossed: numbers.helpers as u64,
        remaining: (numbers.helpers * (numbers.groups - group - 1)) as u64,
        spare: written::<F>(&numbers, many, card, spare, group),
    })
}

/// The spare with the layers of a group written, from the sums that the card
/// gives of the shares.
fn written<F: Field>(
    numbers: &Numbers,
    given: GivenMany<F::Symbol>,
    card: &[F::Symbol],
    spare: &[F::Symbol],
    group: usize,
) -> Vec<F::Symbol> {
    let shares = given.shares.chunks(numbers.groups);
    let sent: Vec<F::Symbol> = shares.map(|share| share[group]).collect();
    let host = given.lost[0].0 as usize / numbers.size;
    let repair = Repair::<F>::new(*numbers, given, None);
    let mut written = spare.to_vec();
    let layers = &numbers.layers_of_groups(host)[group];
    for (&layer, sum) in layers.iter().zip(sums::<F>(numbers, card, &sent)) {
        written[layer] = repair.lost_symbols(layer, &[sum])[0];
    }
    written
}

/// The sums that a card makes of the share symbols of its group, digit 0 first.
fn sums<F: Field>(numbers: &Numbers, card: &[F::Symbol], sent: &[F::Symbol]) -> Vec<F::Symbol> {
    let sum = |multipliers: &[F::Symbol]| {
        let terms = multipliers.iter().zip(sent);
        F::sum(terms.map(|(&multiplier, &symbol)| F::multiply(multiplier, symbol)))
    };
    card.chunks(numbers.helpers).map(sum).collect()
}

fn card_length(numbers: &Numbers) -> usize {
    numbers.helpers * numbers.base
}

/// The grounds of the calls that take a card alone, past the layout's.
fn refuse_card(
    numbers: &Numbers,
    lost: Tray,
    helpers: &[Rack],
    group: u64,
    length: usize,
    in_range: bool,
) -> Result<(), Refusal> {
    let no_rack = helpers.iter().any(|&rack| !numbers.has_rack(rack));
    let outside = !numbers.has_tray(lost) || no_rack || group >= numbers.groups as u64;
    let host = Rack(lost.0 / numbers.size as u32);
    refuse(&[
        (Refusal::Length, length != card_length(numbers)),
        (Refusal::Number, outside || !in_range),
        (Refusal::Order, !rising(helpers)),
        (Refusal::Count, helpers.len() != numbers.helpers),
        (Refusal::Host, helpers.contains(&host)),
    ])
}

/// Whether the card gives the host rack sums of every codeword. Both are sums of
/// a codeword's symbols in the group's layers, and each layer of a codeword is
/// one for itself: so it is enough to try the codewords that are zero in all
/// layers but one, and there have one data symbol that is 1.
fn is_right<F: Field>(
    numbers: &Numbers,
    lost: Tray,
    helpers: &[Rack],
    card: &[F::Symbol],
    group: usize,
) -> bool {
    let host = lost.0 as usize / numbers.size;
    let checks = Checks::<F>::new(*numbers);
    let layers = &numbers.layers_of_groups(host)[group];
    let given_by_card = |digit: usize, trays: &[F::Symbol]| {
        let rack_sum = |rack: usize| {
            let rack = &trays[rack * numbers.size..][..numbers.size];
            F::sum(rack.iter().copied())
        };
        let helpers = helpers.iter().map(|rack| rack.0 as usize);
        let sent: Vec<F::Symbol> = helpers.map(rack_sum).collect();
        let mut expected = vec![F::ZERO; numbers.base];
        expected[digit] = rack_sum(host);
        sums::<F>(numbers, card, &sent) == expected
    };
    layers.iter().enumerate().all(|(digit, &layer)| {
        let mut units = checks.units(layer).into_iter();
        units.all(|trays| given_by_card(digit, &trays))
    })
}
