//! Storing data.

use crate::checks::Checks;
use crate::field::Field;
use crate::layout::Layout;
use crate::refusal::{refuse, Refusal};

/// What the n·L symbols lent hold afterwards: the data, then the trays that make
/// a codeword of them.
pub fn store<F: Field>(
    layout: Layout<F>,
    data: &[F::Symbol],
    codeword: &[F::Symbol],
) -> Result<Vec<F::Symbol>, Refusal> {
    let numbers = layout.numbers()?;
    let wrong_length = data.len() != numbers.dimension * numbers.layers
        || codeword.len() != numbers.trays * numbers.layers;
    refuse(&[
        (Refusal::Length, wrong_length),
        (Refusal::Number, !F::are_symbols(data)),
    ])?;
    let mut unfilled = data.to_vec();
    unfilled.resize(numbers.trays * numbers.layers, F::ZERO);
    let unknown: Vec<usize> = (numbers.dimension..numbers.trays).collect();
    let filled = Checks::<F>::new(numbers).fill(&unfilled, &unknown);
    Ok(filled.expect("r checks in r unknowns have a solution"))
}
