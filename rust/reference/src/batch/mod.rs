//! Batches: many codewords of one layout in a call, interleaved. Symbol i of
//! codeword q stands at i·many + q, in every buffer.
//!
//! Each codeword is taken out and put to the call for one, and what comes back is
//! put in its place. A ground applies to a batch where it does to one of its
//! codewords; lists and numbers are judged where there is none too.

pub mod recover;
pub mod repair;
pub mod share;
pub mod store;
pub mod test;

use crate::refusal::Refusal;

/// What codeword q has of a buffer.
pub fn part<S: Copy>(buffer: &[S], many: usize, q: usize) -> Vec<S> {
    buffer.iter().skip(q).step_by(many).copied().collect()
}

/// The buffer of which the codewords have these parts, all equally long.
pub fn interleaved<S: Copy>(parts: &[Vec<S>]) -> Vec<S> {
    let length = parts.first().map_or(0, Vec::len);
    let of_place = |at: usize| parts.iter().map(move |part| part[at]);
    (0..length).flat_map(of_place).collect()
}

/// Whether a buffer has not so many symbols for each codeword, the product taken
/// in a width in which it cannot wrap. Where it has, their number is not above
/// the buffer's length.
fn wrong_length<S>(buffer: &[S], of_each: usize, many: u64) -> bool {
    buffer.len() as u128 != of_each as u128 * u128::from(many)
}

/// The answers for all codewords, or the first ground that applies: to the lists
/// and numbers, or to a codeword.
fn answers<T>(
    of_lists: Result<(), Refusal>,
    of_each: impl Iterator<Item = Result<T, Refusal>>,
) -> Result<Vec<T>, Refusal> {
    let (mut done, mut grounds) = (vec![], vec![]);
    grounds.extend(of_lists.err());
    for answer in of_each {
        match answer {
            Ok(answer) => done.push(answer),
            Err(ground) => grounds.push(ground),
        }
    }
    // These calls try their grounds in the order of the numbers.
    let first = grounds.into_iter().min_by_key(|ground| ground.number());
    first.map_or(Ok(done), Err)
}
