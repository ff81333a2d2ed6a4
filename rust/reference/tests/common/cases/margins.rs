//! The loss margin.

use super::{shorten, Case, Fault};
use crate::common::Tried;
use reference::*;

#[derive(Clone)]
pub struct Margin<F> {
    pub layout: Layout<F>,
    pub states: Vec<u8>,
}

impl<F: Field> Margin<F> {
    pub fn run(&self) -> Result<i32, Refusal> {
        margin(self.layout, &self.states)
    }
}

impl<F: Tried> Case for Margin<F> {
    type Field = F;

    const FAULTS: &'static [Fault<Margin<F>>] = &[
        (Refusal::Layout, |case| case.layout = F::INADMISSIBLE.into()),
        (Refusal::Length, |case| case.states.push(LIVE)),
        (Refusal::Length, |case| shorten(&mut case.states)),
        (Refusal::Number, |case| case.states[3] = 3),
        (Refusal::Number, |case| case.states[0] = 255),
    ];

    fn sound() -> Margin<F> {
        let [racks, size, ..] = F::SMALL_SHAPE;
        let state = |tray| [LIVE, ABSENT, DEMONSTRATION, LIVE][tray as usize % 4];
        Margin {
            layout: F::SMALL_SHAPE.into(),
            states: (0..racks * size).map(state).collect(),
        }
    }

    fn with_layout(self, layout: Layout<F>) -> Margin<F> {
        Margin { layout, ..self }
    }

    fn refusal(&self) -> Option<Refusal> {
        self.run().err()
    }
}
