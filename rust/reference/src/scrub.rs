//! Testing a stored codeword some layers at a time.

use crate::checks::Checks;
use crate::field::Field;
use crate::layout::{Layout, Numbers};
use crate::refusal::{refuse, Refusal};

/// How far a walk is and what it has found.
#[derive(Clone, Copy, Debug, PartialEq, Eq)]
pub struct ScrubRecord {
    /// The next layer to look at.
    pub next: u32,
    /// How many layers below the next are bad.
    pub bad: u32,
    /// The first bad layer; L means none.
    pub first: u32,
}

#[derive(Clone, Copy, Debug, PartialEq, Eq)]
pub enum Report {
    Unfinished,
    Sound,
    Bad,
}

/// The record of a walk not yet begun.
pub fn scrub_reset<F: Field>(layout: Layout<F>) -> Result<ScrubRecord, Refusal> {
    let numbers = layout.numbers()?;
    Ok(ScrubRecord {
        next: 0,
        bad: 0,
        first: numbers.layers as u32,
    })
}

/// Looks at as many layers as the budget allows, from the record's next one
/// on, and gives the report and the record afterwards. Symbols of other layers
/// are not looked at. A refused call leaves the record as it came.
pub fn scrub<F: Field>(
    layout: Layout<F>,
    codeword: &[F::Symbol],
    record: ScrubRecord,
    budget: u64,
) -> Result<(Report, ScrubRecord), Refusal> {
    let numbers = layout.numbers()?;
    let wrong_length = codeword.len() != numbers.trays * numbers.layers;
    refuse(&[
        (Refusal::Length, wrong_length),
        (Refusal::Number, !is_record(&numbers, record)),
    ])?;
    let next = record.next as usize;
    let looked_at = budget.min((numbers.layers - next) as u64) as usize;
    let run = next..next + looked_at;
    let mut trays = codeword.chunks(numbers.layers);
    let in_range = trays.all(|tray| F::are_symbols(&tray[run.clone()]));
    refuse(&[(Refusal::Number, !in_range)])?;
    let found = bad_layers::<F>(numbers, codeword, run);
    // With none bad so far, the first of those found is the first of all.
    let first = match found.first() {
        Some(&layer) if record.bad == 0 => layer as u32,
        _ => record.first,
    };
    let after = ScrubRecord {
        next: (next + looked_at) as u32,
        bad: record.bad + found.len() as u32,
        first,
    };
    Ok((report(&numbers, after), after))
}

/// The layers of a run in which some check is broken, the lowest first. The
/// codeword must have n·L symbols, and the run must end at L or below.
pub fn bad_layers<F: Field>(
    numbers: Numbers,
    codeword: &[F::Symbol],
    run: std::ops::Range<usize>,
) -> Vec<usize> {
    let checks = Checks::<F>::new(numbers);
    let trays: Vec<usize> = (0..numbers.trays).collect();
    let is_broken = |layer, t| checks.sum(codeword, &trays, layer, t) != F::ZERO;
    let is_bad = |&layer: &usize| (0..numbers.checks).any(|t| is_broken(layer, t));
    run.filter(is_bad).collect()
}

/// The rules of W6 for a record.
fn is_record(numbers: &Numbers, record: ScrubRecord) -> bool {
    let layers = numbers.layers as u32;
    let first_fits = if record.bad == 0 {
        record.first == layers
    } else {
        record.first < record.next
    };
    record.next <= layers && record.bad <= record.next && first_fits
}

/// What a record says of the walk.
fn report(numbers: &Numbers, record: ScrubRecord) -> Report {
    if (record.next as usize) < numbers.layers {
        Report::Unfinished
    } else if record.bad == 0 {
        Report::Sound
    } else {
        Report::Bad
    }
}
