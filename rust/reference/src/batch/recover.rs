//! Recovering erased trays of many codewords, the same of all.

use super::{answers, interleaved, part, wrong_length};
use crate::field::Field;
use crate::layout::{Layout, Tray};
use crate::recover::recover;
use crate::refusal::{refuse, Refusal};

/// What the symbols lent hold afterwards. Where one codeword has no solution
/// nothing is written.
pub fn recover_batch<F: Field>(
    layout: Layout<F>,
    many: u64,
    codewords: &[F::Symbol],
    erased: &[Tray],
) -> Result<Vec<F::Symbol>, Refusal> {
    let numbers = layout.numbers()?;
    let of_each = numbers.trays * numbers.layers;
    refuse(&[(Refusal::Length, wrong_length(codewords, of_each, many))])?;
    // The codeword of zeros is refused for the list alone.
    let of_list = recover(layout, &vec![F::ZERO; of_each], erased).map(drop);
    let many = many as usize;
    let recovered = |q| recover(layout, &part(codewords, many, q), erased);
    Ok(interleaved(&answers(of_list, (0..many).map(recovered))?))
}
