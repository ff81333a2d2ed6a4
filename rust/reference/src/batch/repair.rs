//! Repairing a lost tray of many codewords, whole or a piece.

use super::{answers, interleaved, part, wrong_length};
use crate::field::Field;
use crate::layout::Layout;
use crate::refusal::{refuse, Refusal};
use crate::repair::{repair, Given, Repaired};

/// The same groups of every codeword; each symbol that crosses does so once for
/// each of them.
pub fn repair_batch<F: Field>(
    layout: Layout<F>,
    many: u64,
    given: Given<F::Symbol>,
    spare: &[F::Symbol],
    first: u64,
    budget: u64,
) -> Result<Repaired<F::Symbol>, Refusal> {
    let numbers = layout.numbers_with(0)?;
    let lengths = [
        numbers.helpers * numbers.groups,
        numbers.size * numbers.layers,
        numbers.layers,
    ];
    let lent = [given.shares, given.host, spare];
    let mut both = lent.into_iter().zip(lengths);
    let wrong = both.any(|(buffer, of_each)| wrong_length(buffer, of_each, many));
    refuse(&[(Refusal::Length, wrong)])?;
    let of_one = |[shares, host, spare]: [Vec<F::Symbol>; 3]| {
        let (shares, host) = (&shares[..], &host[..]);
        let given = Given {
            shares,
            host,
            ..given
        };
        repair(layout, given, &spare, first, budget)
    };
    // Zeros are refused for numbers and lists alone, and say how much crosses.
    let of_zeros = of_one(lengths.map(|length| vec![F::ZERO; length]));
    let repaired = |q| of_one(lent.map(|buffer| part(buffer, many as usize, q)));
    let of_lists = of_zeros.as_ref().map(drop).map_err(|&ground| ground);
    let parts = answers(of_lists, (0..many as usize).map(repaired))?;
    let spares: Vec<Vec<F::Symbol>> = parts.into_iter().map(|done| done.spare).collect();
    let of_zeros = of_zeros?;
    Ok(Repaired {
        groups: of_zeros.groups,
        crossed: of_zeros.crossed * many,
        remaining: of_zeros.remaining * many,
        spare: interleaved(&spares),
    })
}
