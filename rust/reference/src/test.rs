//! Testing a codeword.

use crate::checks::Checks;
use crate::field::Field;
use crate::layout::{Layer, Layout};
use crate::refusal::{refuse, Refusal};

#[derive(Clone, Copy, Debug, PartialEq, Eq)]
pub enum Tested {
    Sound,
    /// The first bad layer and the least t broken there.
    Bad {
        layer: Layer,
        check: u32,
    },
}

/// Looks at every symbol before it answers.
pub fn test<F: Field>(layout: Layout<F>, codeword: &[F::Symbol]) -> Result<Tested, Refusal> {
    let numbers = layout.numbers()?;
    let wrong_length = codeword.len() != numbers.trays * numbers.layers;
    refuse(&[
        (Refusal::Length, wrong_length),
        (Refusal::Number, !F::are_symbols(codeword)),
    ])?;
    let checks = Checks::<F>::new(numbers);
    let trays: Vec<usize> = (0..numbers.trays).collect();
    for layer in 0..numbers.layers {
        for t in 0..numbers.checks {
            if checks.sum(codeword, &trays, layer, t) != F::ZERO {
                return Ok(Tested::Bad {
                    layer: Layer(layer as u32),
                    check: t as u32,
                });
            }
        }
    }
    Ok(Tested::Sound)
}
