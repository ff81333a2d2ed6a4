//! Storing many codewords' data.

use super::{answers, interleaved, part, wrong_length};
use crate::field::Field;
use crate::layout::Layout;
use crate::refusal::{refuse, Refusal};
use crate::store::store;

/// What the symbols lent for the codewords hold afterwards.
pub fn store_batch<F: Field>(
    layout: Layout<F>,
    many: u64,
    data: &[F::Symbol],
    codewords: &[F::Symbol],
) -> Result<Vec<F::Symbol>, Refusal> {
    let numbers = layout.numbers()?;
    let wrong = wrong_length(data, numbers.dimension * numbers.layers, many)
        || wrong_length(codewords, numbers.trays * numbers.layers, many);
    refuse(&[(Refusal::Length, wrong)])?;
    let many = many as usize;
    let stored = |q| store(layout, &part(data, many, q), &part(codewords, many, q));
    Ok(interleaved(&answers(Ok(()), (0..many).map(stored))?))
}
