//! Recovering erased trays.

use crate::checks::Checks;
use crate::field::Field;
use crate::layout::{Layout, Numbers, Tray};
use crate::refusal::{refuse, rising, Refusal};

/// What the n·L symbols lent hold afterwards.
pub fn recover<F: Field>(
    layout: Layout<F>,
    codeword: &[F::Symbol],
    erased: &[Tray],
) -> Result<Vec<F::Symbol>, Refusal> {
    let numbers = refuse_erased::<F>(layout, codeword, erased)?;
    let unknown: Vec<usize> = erased.iter().map(|tray| tray.0 as usize).collect();
    Checks::<F>::new(numbers)
        .fill(codeword, &unknown)
        .ok_or(Refusal::Survivors)
}

/// Grounds 1 to 5 of a call over a codeword and a list of its erased trays.
pub(crate) fn refuse_erased<F: Field>(
    layout: Layout<F>,
    codeword: &[F::Symbol],
    erased: &[Tray],
) -> Result<Numbers, Refusal> {
    let numbers = layout.numbers()?;
    let wrong_length = codeword.len() != numbers.trays * numbers.layers;
    refuse(&[(Refusal::Length, wrong_length)])?;
    let outside = erased.iter().any(|&tray| !numbers.has_tray(tray));
    refuse(&[
        (
            Refusal::Number,
            outside || !survivors_in_range::<F>(&numbers, codeword, erased),
        ),
        (Refusal::Order, !rising(erased)),
        (Refusal::Count, erased.len() > numbers.checks),
    ])?;
    Ok(numbers)
}

/// Whether the trays that are not listed hold symbols, whatever the list is.
fn survivors_in_range<F: Field>(
    numbers: &Numbers,
    codeword: &[F::Symbol],
    erased: &[Tray],
) -> bool {
    let trays = codeword.chunks(numbers.layers).enumerate();
    trays
        .filter(|(tray, _)| !erased.contains(&Tray(*tray as u32)))
        .all(|(_, symbols)| F::are_symbols(symbols))
}
