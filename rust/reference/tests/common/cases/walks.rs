//! The walk.

use super::{shorten, Case, Fault, Put};
use crate::common::{codeword, symbol, Tried};
use reference::*;

#[derive(Clone)]
pub struct Scrub<F: Field> {
    pub layout: Layout<F>,
    pub codeword: Vec<F::Symbol>,
    pub record: ScrubRecord,
    pub budget: u64,
}

impl<F: Field> Scrub<F> {
    pub fn run(&self) -> Result<(Report, ScrubRecord), Refusal> {
        scrub(self.layout, &self.codeword, self.record, self.budget)
    }
}

impl<F: Tried> Case for Scrub<F> {
    type Field = F;

    const FAULTS: &'static [Fault<Scrub<F>>] = &[
        (Refusal::Layout, |case| case.layout = F::INADMISSIBLE.into()),
        (Refusal::Length, |case| case.codeword.push(F::ONE)),
        (Refusal::Length, |case| shorten(&mut case.codeword)),
        (Refusal::Length, |case| case.codeword.clear()),
        (Refusal::Number, |case| case.record.next = 17),
        (Refusal::Number, |case| case.record.next = u32::MAX),
        (Refusal::Number, |case| case.record.bad = 10),
        (Refusal::Number, |case| case.record.bad = u32::MAX),
        (Refusal::Number, |case| case.record.bad = 0),
        (Refusal::Number, |case| case.record.first = 9),
        (Refusal::Number, |case| case.record.first = 16),
        (Refusal::Number, |case| case.record.first = u32::MAX),
        (Refusal::Number, |case| case.record.next = 0),
    ];

    // The walk looks at layers 9 to 13.
    const SEEN: &'static [Put<Scrub<F>>] = &[
        |case, number| put(case, 9, number),
        |case, number| put(case, 16 + 13, number),
        |case, number| put(case, 48 + 11, number),
    ];
    const UNSEEN: &'static [Put<Scrub<F>>] = &[
        |case, number| put(case, 8, number),
        |case, number| put(case, 16 + 14, number),
        |case, number| put(case, 32, number),
    ];

    fn sound() -> Scrub<F> {
        let layout = F::SMALL_SHAPE.into();
        let mut damaged = codeword(layout, 61);
        for (at, added) in [(4, 1), (16 + 7, 2), (32 + 12, 4)] {
            damaged[at] = F::add(damaged[at], symbol::<F>(added));
        }
        let record = ScrubRecord {
            next: 9,
            bad: 2,
            first: 4,
        };
        Scrub {
            layout,
            codeword: damaged,
            record,
            budget: 5,
        }
    }

    fn with_layout(self, layout: Layout<F>) -> Scrub<F> {
        Scrub { layout, ..self }
    }

    fn refusal(&self) -> Option<Refusal> {
        self.run().err()
    }
}

/// Puts a number in a place of the codeword that is there.
fn put<F: Field>(case: &mut Scrub<F>, at: usize, number: F::Symbol) {
    if let Some(place) = case.codeword.get_mut(at) {
        *place = number;
    }
}
