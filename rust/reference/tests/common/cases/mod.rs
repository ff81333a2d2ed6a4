//! The calls with all they are given, and the faults for which they are refused.

mod cards;
mod codewords;
mod corrections;
mod images;
mod margins;
mod parts;
mod repairs;
mod shares;
mod trays;
mod walks;

pub use cards::{CardPrint, CardRepair, CardTest};
pub use codewords::{Recover, Store, Test};
pub use corrections::Correct;
pub use images::{CopyImage, WriteImage};
pub use margins::Margin;
pub use parts::ReadPart;
pub use repairs::{Repair, RepairMany};
pub use shares::{fed, Share, ShareAdd, ShareAddMany, ShareMany};
pub use trays::{images, Gather, GatherRack, RecoverCorrecting, TestKept, VOLUME};
pub use walks::Scrub;

use super::Tried;
use reference::*;

/// The order in which the grounds are tried.
pub const ORDER: [Refusal; 15] = [
    Refusal::Layout,
    Refusal::Length,
    Refusal::Number,
    Refusal::Order,
    Refusal::Count,
    Refusal::LostCount,
    Refusal::Host,
    Refusal::FirstGroup,
    Refusal::Survivors,
    Refusal::Malformed,
    Refusal::Demonstration,
    Refusal::Other,
    Refusal::NotRepaired,
    Refusal::Shares,
    Refusal::Card,
];

/// A fault and the ground it brings about.
pub type Fault<C> = (Refusal, fn(&mut C));

/// Puts a number somewhere in a buffer that is lent.
pub type Put<C> = fn(&mut C, <<C as Case>::Field as Field>::Symbol);

/// A call with all it is given.
pub trait Case: Clone + 'static {
    type Field: Tried;

    const FAULTS: &'static [Fault<Self>];

    /// Where a number that is no symbol is refused, and where it is not looked
    /// at.
    const SEEN: &'static [Put<Self>] = &[];
    const UNSEEN: &'static [Put<Self>] = &[];

    /// A case that isn't refused.
    fn sound() -> Self;

    fn with_layout(self, layout: Layout<Self::Field>) -> Self;

    fn refusal(&self) -> Option<Refusal>;

    /// Whether the call, faulty or not, looks at symbols.
    fn looks(&self) -> bool {
        true
    }
}

/// The sound case with each single fault and with each two faults of different
/// grounds, and the ground to be given.
pub fn faulted<C: Clone>(sound: fn() -> C, faults: &[Fault<C>]) -> Vec<(Refusal, C)> {
    let rank = |ground: &Refusal| ORDER.iter().position(|other| other == ground);
    let mut cases = vec![];
    for (later, spoil) in faults {
        let mut once = sound();
        spoil(&mut once);
        for (earlier, spoil_too) in faults {
            if rank(earlier) < rank(later) {
                let mut twice = once.clone();
                spoil_too(&mut twice);
                cases.push((*earlier, twice));
            }
        }
        cases.push((*later, once));
    }
    cases
}

/// The same, and the sound case with each bad layout and with each number that is
/// no symbol.
pub fn faulty<C: Case>() -> Vec<(Refusal, C)> {
    let mut cases = faulted(C::sound, C::FAULTS);
    let of_layout = |shape: &[u32; 4]| C::sound().with_layout(Layout::from(*shape));
    let bad_layouts = C::Field::BAD_LAYOUTS.iter();
    cases.extend(bad_layouts.map(|shape| (Refusal::Layout, of_layout(shape))));
    cases.extend(with_no_symbol());
    cases
}

/// The sound case, and those with one fault, with a number that is no symbol
/// where the call looks.
fn with_no_symbol<C: Case>() -> Vec<(Refusal, C)> {
    let mut cases = vec![];
    for put in C::SEEN {
        let with = |mut case: C, at: usize| {
            let large = C::Field::LARGE;
            put(&mut case, large[at % large.len()]);
            case
        };
        for at in 0..C::Field::LARGE.len() {
            cases.push((Refusal::Number, with(C::sound(), at)));
        }
        if C::Field::LARGE.is_empty() {
            continue;
        }
        for (at, (ground, spoil)) in C::FAULTS.iter().enumerate() {
            let mut case = C::sound();
            spoil(&mut case);
            let earlier = matches!(ground, Refusal::Layout | Refusal::Length) || !case.looks();
            let expected = if earlier { *ground } else { Refusal::Number };
            cases.push((expected, with(case, at)));
        }
    }
    cases
}

/// The sound case, and those with one fault, with a number that is no symbol
/// where nobody looks; and the ground given, if any.
pub fn with_unseen<C: Case>() -> Vec<(Option<Refusal>, C)> {
    let mut cases = vec![];
    for put in C::UNSEEN {
        for &large in C::Field::LARGE {
            let mut case = C::sound();
            put(&mut case, large);
            cases.push((None, case.clone()));
            for (ground, spoil) in C::FAULTS {
                let mut faulty = case.clone();
                spoil(&mut faulty);
                cases.push((Some(*ground), faulty));
            }
        }
    }
    cases
}

fn shorten<T>(list: &mut Vec<T>) {
    list.pop();
}

/// Puts a number in the place of the last, if there is one.
fn put_last<S>(buffer: &mut [S], number: S) {
    if let Some(last) = buffer.last_mut() {
        *last = number;
    }
}
