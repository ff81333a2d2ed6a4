//! Repairing a lost tray from shares of which one may be wrong.

use crate::field::Field;
use crate::layout::{Layout, Rack};
use crate::refusal::Refusal;
use crate::repair::{refuse_given, Given, Repair};

/// What the repair reports, and what the spare holds afterwards.
#[derive(Clone, Debug, PartialEq, Eq)]
pub struct Corrected<S> {
    /// The helper whose share is wrong, B where none is.
    pub rack: Rack,
    pub crossed: u64,
    pub spare: Vec<S>,
}

/// E is 1, and all groups are done at once.
///
/// The checks summed over each group are tried with the shares as they are, and
/// then with each helper's share left open in turn. They hold for the shares,
/// or can be made to hold by changing one helper's, exactly when one of these
/// has a solution in every group. Where the first has none, the share left open
/// differs from what was sent: its rack is named.
pub fn repair_correcting<F: Field>(
    layout: Layout<F>,
    given: Given<F::Symbol>,
    spare: &[F::Symbol],
) -> Result<Corrected<F::Symbol>, Refusal> {
    let numbers = layout.numbers_with(1)?;
    let lost = [given.lost];
    let many = given.as_many(&lost);
    refuse_given::<F>(&numbers, many, spare, 0..numbers.groups)?;
    let written = |open| Repair::<F>::new(numbers, many, open).write(spare, 0..numbers.groups);
    let as_sent = || Some((Rack(layout.racks), written(None)?));
    let changed = |at: usize| Some((given.helpers[at], written(Some(at))?));
    let (rack, spare) = as_sent()
        .or_else(|| (0..numbers.helpers).find_map(changed))
        .ok_or(Refusal::Shares)?;
    Ok(Corrected {
        rack,
        crossed: (numbers.helpers * numbers.groups) as u64,
        spare,
    })
}
