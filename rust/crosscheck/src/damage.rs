//! Damages that chosen checks see.

use crate::cabinet::Cabinet;
use crate::field::{in_field, numbers, symbols, Symbol};
use crate::random::Random;
use reference::checks::Checks;
use reference::elimination::{solve, Equation};

/// Changes a layer of a codeword in the trays named, by symbols that give check
/// t the sum `sums[t]` in it. There is a sum for each tray named.
pub fn add(
    cabinet: &Cabinet,
    codeword: &mut [Symbol],
    layer: usize,
    trays: &[u32],
    sums: &[Symbol],
) {
    let added = in_field!(
        cabinet.field,
        numbers(&seen::<F>(cabinet, layer, trays, sums))
    );
    for (&tray, symbol) in trays.iter().zip(added) {
        add_at(cabinet, codeword, cabinet.tray(tray).start + layer, symbol);
    }
}

/// The symbols that in these trays give check t the sum `sums[t]`.
fn seen<F: reference::Field>(
    cabinet: &Cabinet,
    layer: usize,
    trays: &[u32],
    sums: &[Symbol],
) -> Vec<F::Symbol> {
    let checks = Checks::<F>::new(cabinet.numbers);
    let equation = |(t, sum): (usize, F::Symbol)| -> Equation<F> {
        let coefficients = trays
            .iter()
            .map(|&tray| checks.coefficient(tray as usize, layer, t));
        coefficients.chain([sum]).collect()
    };
    let sums = symbols::<F>(sums).into_iter();
    let equations = sums.enumerate().map(equation).collect();
    solve::<F>(equations, trays.len()).expect("as many equations as unknowns")
}

/// Adds to one symbol of a codeword.
pub fn add_at(cabinet: &Cabinet, codeword: &mut [Symbol], at: usize, added: Symbol) {
    codeword[at] = cabinet.field.add(codeword[at], added);
}

/// Changes some symbol of a codeword.
pub fn anywhere(cabinet: &Cabinet, random: &mut Random, codeword: &mut [Symbol]) {
    let at = random.below(codeword.len());
    add_at(cabinet, codeword, at, random.nonzero(cabinet.field));
}

/// Makes `least` the least check that a layer breaks, in as few trays as can be:
/// t + 1 of them, all checks below t vanishing.
pub fn least_broken(
    cabinet: &Cabinet,
    random: &mut Random,
    codeword: &mut [Symbol],
    layer: usize,
    least: usize,
) {
    let trays = random.some_of(least + 1, cabinet.tray_numbers());
    let mut sums = vec![0; least];
    sums.push(random.nonzero(cabinet.field));
    add(cabinet, codeword, layer, &trays, &sums);
}

/// Damages a layer so that one check alone sees it, in r trays, the erased ones
/// among them: the survivors are then those of no codeword, unless they happen
/// to have no damage at all.
pub fn seen_by_one(
    cabinet: &Cabinet,
    random: &mut Random,
    codeword: &mut [Symbol],
    layer: usize,
    erased: &[u32],
) {
    let checks = cabinet.numbers.checks;
    let mut others = cabinet.tray_numbers();
    others.retain(|tray| !erased.contains(tray));
    let mut trays = random.some_of(checks - erased.len(), others);
    trays.extend(erased);
    let mut sums = vec![0; checks];
    sums[random.below(checks)] = random.nonzero(cabinet.field);
    add(cabinet, codeword, layer, &trays, &sums);
}
