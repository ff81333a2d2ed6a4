//! Reading a tray while a repair is under way.

use crate::field::Field;
use crate::layout::{Layout, Numbers, Tray};
use crate::refusal::{refuse, Refusal};

/// The buffer that a part lies in.
#[derive(Clone, Copy, Debug, PartialEq, Eq)]
pub enum Source {
    Store,
    Spare,
}

/// What a read gives: the symbols, the buffer they lie in and where they begin
/// in it.
#[derive(Clone, Debug, PartialEq, Eq)]
pub struct Part<S> {
    pub source: Source,
    pub offset: usize,
    pub symbols: Vec<S>,
}

/// What a read asks for: layers `first` .. `end` of a tray, `end` not included.
#[derive(Clone, Copy, Debug, PartialEq, Eq)]
pub struct Asked {
    pub tray: Tray,
    pub first: u32,
    pub end: u32,
}

/// The part asked for, while groups 0 .. `groups` of the lost tray's repair
/// stand in the spare. No symbol is looked at. E is 0.
pub fn read_part<F: Field>(
    layout: Layout<F>,
    codeword: &[F::Symbol],
    spare: &[F::Symbol],
    lost: Tray,
    groups: u64,
    asked: Asked,
) -> Result<Part<F::Symbol>, Refusal> {
    let numbers = layout.numbers_with(0)?;
    let wrong_length =
        codeword.len() != numbers.trays * numbers.layers || spare.len() != numbers.layers;
    let outside = !numbers.has_tray(lost)
        || !numbers.has_tray(asked.tray)
        || !is_run(&numbers, asked)
        || groups > numbers.groups as u64;
    refuse(&[(Refusal::Length, wrong_length), (Refusal::Number, outside)])?;
    let run = asked.first as usize..asked.end as usize;
    let (source, buffer, start) = if asked.tray == lost {
        (Source::Spare, spare, 0)
    } else {
        let start = asked.tray.0 as usize * numbers.layers;
        (Source::Store, codeword, start)
    };
    let host = lost.0 as usize / numbers.size;
    let done = |layer| (numbers.group(host, layer) as u64) < groups;
    let missing = source == Source::Spare && !run.clone().all(done);
    refuse(&[(Refusal::NotRepaired, missing)])?;
    Ok(Part {
        source,
        offset: start + run.start,
        symbols: buffer[start + run.start..start + run.end].to_vec(),
    })
}

/// Whether the run lies in 0 .. L and doesn't end before it begins.
fn is_run(numbers: &Numbers, asked: Asked) -> bool {
    asked.first <= asked.end && asked.end as usize <= numbers.layers
}
