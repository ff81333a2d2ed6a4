//! A helper's share of many codewords.

use super::{answers, interleaved, part, wrong_length};
use crate::field::Field;
use crate::layout::{Layout, Rack};
use crate::refusal::{refuse, Refusal};
use crate::share::share;

/// What the symbols lent for the share hold afterwards.
pub fn share_batch<F: Field>(
    layout: Layout<F>,
    many: u64,
    host: Rack,
    helper: Rack,
    rack: &[F::Symbol],
    lent: &[F::Symbol],
) -> Result<Vec<F::Symbol>, Refusal> {
    let numbers = layout.numbers()?;
    let (of_rack, of_share) = (numbers.size * numbers.layers, numbers.groups);
    let wrong = wrong_length(rack, of_rack, many) || wrong_length(lent, of_share, many);
    refuse(&[(Refusal::Length, wrong)])?;
    // A rack of zeros is refused for the racks' numbers alone.
    let [zeros, room] = [of_rack, of_share].map(|length| vec![F::ZERO; length]);
    let of_racks = share(layout, host, helper, &zeros, &room).map(drop);
    let many = many as usize;
    let shared = |q| {
        let [rack, lent] = [rack, lent].map(|buffer| part(buffer, many, q));
        share(layout, host, helper, &rack, &lent)
    };
    Ok(interleaved(&answers(of_racks, (0..many).map(shared))?))
}
