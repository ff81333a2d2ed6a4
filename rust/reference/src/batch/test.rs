//! Testing many codewords of which trays are missing, the same of all.

use super::{answers, part, wrong_length};
use crate::field::Field;
use crate::kept::test_kept;
use crate::layout::{Layer, Layout, Tray};
use crate::refusal::{refuse, Refusal};

/// The least layer that does not fit in some codeword, and the least codeword in
/// which it does not; none where all fit.
pub fn test_batch<F: Field>(
    layout: Layout<F>,
    many: u64,
    codewords: &[F::Symbol],
    erased: &[Tray],
) -> Result<Option<(Layer, u64)>, Refusal> {
    let numbers = layout.numbers()?;
    let of_each = numbers.trays * numbers.layers;
    refuse(&[(Refusal::Length, wrong_length(codewords, of_each, many))])?;
    // The codeword of zeros is refused for the list alone.
    let of_list = test_kept(layout, &vec![F::ZERO; of_each], erased).map(drop);
    let many = many as usize;
    let tested = |q| test_kept(layout, &part(codewords, many, q), erased);
    let found = answers(of_list, (0..many).map(tested))?;
    let bad = found.iter().zip(0..);
    Ok(bad.filter_map(|(kept, q)| Some((kept.bad?, q))).min())
}
