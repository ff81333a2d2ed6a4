//! Recovering erased trays though one of the others may be wrong.

use crate::checks::Checks;
use crate::field::Field;
use crate::layout::{Layout, Tray};
use crate::recover::refuse_erased;
use crate::refusal::Refusal;

/// What the recovery reports, and what the n·L symbols lent hold afterwards.
#[derive(Clone, Debug, PartialEq, Eq)]
pub struct Recovered<S> {
    /// The tray that was wrong, n where none was.
    pub tray: Tray,
    /// r less the number of erased trays.
    pub checks: u32,
    pub codeword: Vec<S>,
}

/// A tray can be found wrong only where so many checks are left.
const CHECKS_TO_FIND_ONE: usize = 2;

/// The checks are tried with the erased trays unknown; where some layers have no
/// solution, with each other tray unknown too, one after another. A layer that has
/// a solution keeps it with one more tray unknown, which is then found as it is:
/// so only the layers without one are tried again.
pub fn recover_correcting<F: Field>(
    layout: Layout<F>,
    codeword: &[F::Symbol],
    erased: &[Tray],
) -> Result<Recovered<F::Symbol>, Refusal> {
    let numbers = refuse_erased::<F>(layout, codeword, erased)?;
    let checks = Checks::<F>::new(numbers);
    let left = numbers.checks - erased.len();
    let unknown: Vec<usize> = erased.iter().map(|tray| tray.0 as usize).collect();
    let mut filled = codeword.to_vec();
    let mut put = |unknown: &[usize], layer: usize, symbols: Vec<F::Symbol>| {
        for (tray, symbol) in unknown.iter().zip(symbols) {
            filled[tray * numbers.layers + layer] = symbol;
        }
    };
    let mut bad = vec![];
    for layer in 0..numbers.layers {
        match checks.complete(codeword, &unknown, layer) {
            Some(symbols) => put(&unknown, layer, symbols),
            None => bad.push(layer),
        }
    }
    let with = |tray: usize| [&unknown[..], &[tray]].concat();
    let solved = |tray: usize| -> Option<Vec<Vec<F::Symbol>>> {
        let in_layer = |&layer: &usize| checks.complete(codeword, &with(tray), layer);
        bad.iter().map(in_layer).collect()
    };
    let mut named = numbers.trays;
    if !bad.is_empty() {
        let others = (0..numbers.trays).filter(|tray| !unknown.contains(tray));
        let mut candidates = others.filter(|_| left >= CHECKS_TO_FIND_ONE);
        let found = candidates.find_map(|tray| Some((tray, solved(tray)?)));
        let (tray, symbols) = found.ok_or(Refusal::Survivors)?;
        named = tray;
        for (&layer, symbols) in bad.iter().zip(symbols) {
            put(&with(tray), layer, symbols);
        }
    }
    Ok(Recovered {
        tray: Tray(named as u32),
        checks: left as u32,
        codeword: filled,
    })
}
