//! Testing, storing and recovering.

use super::{put_last, shorten, Case, Fault, Put};
use crate::common::{codeword, scattered, Tried};
use reference::*;

#[derive(Clone)]
pub struct Test<F: Field> {
    pub layout: Layout<F>,
    pub codeword: Vec<F::Symbol>,
}

impl<F: Field> Test<F> {
    pub fn run(&self) -> Result<Tested, Refusal> {
        test(self.layout, &self.codeword)
    }
}

impl<F: Tried> Case for Test<F> {
    type Field = F;

    const FAULTS: &'static [Fault<Test<F>>] = &[
        (Refusal::Layout, |case| case.layout = F::INADMISSIBLE.into()),
        (Refusal::Length, |case| case.codeword.push(F::ONE)),
        (Refusal::Length, |case| shorten(&mut case.codeword)),
    ];

    const SEEN: &'static [Put<Test<F>>] = &[
        |case, number| case.codeword[0] = number,
        |case, number| put_last(&mut case.codeword, number),
        // A bad layer before it is not reported.
        |case, number| {
            case.codeword[0] = F::add(case.codeword[0], F::ONE);
            case.codeword[31] = number;
        },
    ];

    fn sound() -> Test<F> {
        let layout = F::SHAPE.into();
        Test {
            layout,
            codeword: codeword(layout, 21),
        }
    }

    fn with_layout(self, layout: Layout<F>) -> Test<F> {
        Test { layout, ..self }
    }

    fn refusal(&self) -> Option<Refusal> {
        self.run().err()
    }
}

#[derive(Clone)]
pub struct Store<F: Field> {
    pub layout: Layout<F>,
    pub data: Vec<F::Symbol>,
    pub codeword: Vec<F::Symbol>,
}

impl<F: Field> Store<F> {
    pub fn run(&self) -> Result<Vec<F::Symbol>, Refusal> {
        store(self.layout, &self.data, &self.codeword)
    }
}

impl<F: Tried> Case for Store<F> {
    type Field = F;

    const FAULTS: &'static [Fault<Store<F>>] = &[
        (Refusal::Layout, |case| case.layout = F::INADMISSIBLE.into()),
        (Refusal::Length, |case| shorten(&mut case.data)),
        (Refusal::Length, |case| case.codeword.push(F::ONE)),
    ];

    const SEEN: &'static [Put<Store<F>>] = &[
        |case, number| case.data[0] = number,
        |case, number| put_last(&mut case.data, number),
    ];
    const UNSEEN: &'static [Put<Store<F>>] = &[|case, number| case.codeword.fill(number)];

    fn sound() -> Store<F> {
        let [racks, size, dimension, _] = F::SHAPE.map(|number| number as usize);
        Store {
            layout: F::SHAPE.into(),
            data: scattered::<F>(22, dimension * 32),
            codeword: scattered::<F>(23, racks * size * 32),
        }
    }

    fn with_layout(self, layout: Layout<F>) -> Store<F> {
        Store { layout, ..self }
    }

    fn refusal(&self) -> Option<Refusal> {
        self.run().err()
    }
}

#[derive(Clone)]
pub struct Recover<F: Field> {
    pub layout: Layout<F>,
    pub codeword: Vec<F::Symbol>,
    pub erased: Vec<Tray>,
}

impl<F: Field> Recover<F> {
    pub fn run(&self) -> Result<Vec<F::Symbol>, Refusal> {
        recover(self.layout, &self.codeword, &self.erased)
    }

    pub fn set_erased(&mut self, erased: impl IntoIterator<Item = u32>) {
        self.erased = erased.into_iter().map(Tray).collect();
    }
}

/// The trays and the checks of the layout.
fn trays_and_checks<F: Tried>() -> (u32, u32) {
    let [racks, size, dimension, _] = F::SHAPE;
    (racks * size, racks * size - dimension)
}

impl<F: Tried> Case for Recover<F> {
    type Field = F;

    const FAULTS: &'static [Fault<Recover<F>>] = &[
        (Refusal::Layout, |case| case.layout = F::INADMISSIBLE.into()),
        (Refusal::Length, |case| case.codeword.push(F::ONE)),
        (Refusal::Length, |case| shorten(&mut case.codeword)),
        (Refusal::Number, |case| {
            case.erased[2] = Tray(trays_and_checks::<F>().0)
        }),
        (Refusal::Number, |case| case.erased[0] = Tray(u32::MAX)),
        (Refusal::Order, |case| case.erased.swap(0, 1)),
        (Refusal::Order, |case| case.erased[1] = case.erased[0]),
        (Refusal::Count, |case| {
            case.set_erased(1..trays_and_checks::<F>().1 + 2)
        }),
        (Refusal::Survivors, |case| {
            case.codeword[5] = F::add(case.codeword[5], F::ONE)
        }),
    ];

    const SEEN: &'static [Put<Recover<F>>] = &[
        |case, number| case.codeword[0] = number,
        |case, number| case.codeword[31] = number,
    ];
    const UNSEEN: &'static [Put<Recover<F>>] = &[
        |case, number| case.codeword[2 * 32..3 * 32].fill(number),
        |case, number| case.codeword[6 * 32..7 * 32].fill(number),
    ];

    fn sound() -> Recover<F> {
        let layout = F::SHAPE.into();
        Recover {
            layout,
            codeword: codeword(layout, 24),
            erased: [2, 3, 6].map(Tray).to_vec(),
        }
    }

    fn with_layout(self, layout: Layout<F>) -> Recover<F> {
        Recover { layout, ..self }
    }

    fn refusal(&self) -> Option<Refusal> {
        self.run().err()
    }
}
