//! The calls from trays to records.

use super::{shorten, Case, Fault, Put, Recover};
use crate::common::{codeword, scattered, Dice, Tried};
use reference::image::image_length;
use reference::*;

/// Recovering though a tray may be wrong is given what a recovery is.
#[derive(Clone)]
pub struct RecoverCorrecting<F: Field>(pub Recover<F>);

impl<F: Field> RecoverCorrecting<F> {
    pub fn run(&self) -> Result<Recovered<F::Symbol>, Refusal> {
        recover_correcting(self.0.layout, &self.0.codeword, &self.0.erased)
    }
}

impl<F: Tried> Case for RecoverCorrecting<F> {
    type Field = F;

    /// Two trays are wrong, in different layers.
    const FAULTS: &'static [Fault<RecoverCorrecting<F>>] = &[
        (Refusal::Layout, |case| {
            case.0.layout = F::INADMISSIBLE.into()
        }),
        (Refusal::Length, |case| case.0.codeword.push(F::ONE)),
        (Refusal::Length, |case| shorten(&mut case.0.codeword)),
        (Refusal::Number, |case| case.0.erased[0] = Tray(u32::MAX)),
        (Refusal::Order, |case| case.0.erased.swap(0, 1)),
        (Refusal::Order, |case| case.0.erased[1] = case.0.erased[0]),
        (Refusal::Count, |case| {
            let [racks, size, dimension, _] = F::SHAPE;
            case.0.set_erased(2..racks * size - dimension + 3)
        }),
        (Refusal::Survivors, |case| {
            case.0.codeword[5] = F::add(case.0.codeword[5], F::ONE);
            case.0.codeword[38] = F::add(case.0.codeword[38], F::ONE)
        }),
    ];

    const SEEN: &'static [Put<RecoverCorrecting<F>>] = &[
        |case, number| case.0.codeword[0] = number,
        |case, number| case.0.codeword[31] = number,
    ];
    const UNSEEN: &'static [Put<RecoverCorrecting<F>>] = &[
        |case, number| case.0.codeword[2 * 32..3 * 32].fill(number),
        |case, number| case.0.codeword[6 * 32..7 * 32].fill(number),
    ];

    fn sound() -> RecoverCorrecting<F> {
        RecoverCorrecting(Recover::sound())
    }

    fn with_layout(self, layout: Layout<F>) -> RecoverCorrecting<F> {
        RecoverCorrecting(self.0.with_layout(layout))
    }

    fn refusal(&self) -> Option<Refusal> {
        self.run().err()
    }
}

/// So is a test with trays missing, for which no survivors are a refusal.
#[derive(Clone)]
pub struct TestKept<F: Field>(pub Recover<F>);

impl<F: Tried> Case for TestKept<F> {
    type Field = F;

    const FAULTS: &'static [Fault<TestKept<F>>] = &[
        (Refusal::Layout, |case| {
            case.0.layout = F::INADMISSIBLE.into()
        }),
        (Refusal::Length, |case| shorten(&mut case.0.codeword)),
        (Refusal::Number, |case| case.0.erased[2] = Tray(u32::MAX)),
        (Refusal::Order, |case| case.0.erased.swap(1, 2)),
        (Refusal::Count, |case| {
            let [racks, size, dimension, _] = F::SHAPE;
            case.0.set_erased(2..racks * size - dimension + 3)
        }),
    ];

    const SEEN: &'static [Put<TestKept<F>>] = &[
        |case, number| case.0.codeword[0] = number,
        |case, number| case.0.codeword[31] = number,
    ];
    const UNSEEN: &'static [Put<TestKept<F>>] =
        &[|case, number| case.0.codeword[2 * 32..3 * 32].fill(number)];

    fn sound() -> TestKept<F> {
        TestKept(Recover::sound())
    }

    fn with_layout(self, layout: Layout<F>) -> TestKept<F> {
        TestKept(self.0.with_layout(layout))
    }

    fn refusal(&self) -> Option<Refusal> {
        test_kept(self.0.layout, &self.0.codeword, &self.0.erased).err()
    }
}

/// The images of the trays of a codeword, one after another, all of this volume.
pub fn images<F: Tried>(layout: Layout<F>, codeword: &[F::Symbol], volume: u32) -> Vec<u8> {
    let layers = layout.numbers().unwrap().layers;
    let lent = vec![0; image_length::<F>(layers)];
    let trays = (0..).map(Tray).zip(codeword.chunks(layers));
    let image =
        |(tray, symbols)| write_image(layout, tray, LIVE.into(), volume, symbols, &lent).unwrap();
    trays.flat_map(image).collect()
}

/// What stands at all places of a small cabinet, for its states or for gathering.
#[derive(Clone)]
pub struct Gather<F: Field> {
    pub layout: Layout<F>,
    pub volume: u32,
    pub images: Vec<u8>,
    pub codeword: Vec<F::Symbol>,
    pub missing: Vec<Tray>,
    pub states: Vec<u8>,
}

pub const VOLUME: u32 = 7;

impl<F: Tried> Gather<F> {
    pub fn run(&self) -> Result<Gathered<F::Symbol>, Refusal> {
        let (images, codeword) = (&self.images, &self.codeword);
        gather(self.layout, self.volume, images, codeword, &self.missing)
    }

    pub fn states(&self) -> Result<Vec<u8>, Refusal> {
        states(self.layout, self.volume, &self.images, &self.states)
    }

    /// What stands at a tray's place.
    pub fn image(&mut self, tray: usize) -> &mut [u8] {
        let length = image_length::<F>(16);
        &mut self.images[tray * length..][..length]
    }
}

impl<F: Tried> Case for Gather<F> {
    type Field = F;

    const FAULTS: &'static [Fault<Gather<F>>] = &[
        (Refusal::Layout, |case| case.layout = F::INADMISSIBLE.into()),
        (Refusal::Length, |case| case.images.push(0)),
        (Refusal::Length, |case| shorten(&mut case.images)),
        (Refusal::Length, |case| {
            shorten(&mut case.codeword);
            shorten(&mut case.states)
        }),
        (Refusal::Length, |case| {
            case.missing.push(Tray(0));
            case.states.push(0)
        }),
    ];

    const UNSEEN: &'static [Put<Gather<F>>] = &[|case, number| case.codeword.fill(number)];

    fn sound() -> Gather<F> {
        let layout = Layout::from(F::SMALL_SHAPE);
        let numbers = layout.numbers().unwrap();
        let whole = codeword(layout, 131);
        Gather {
            layout,
            volume: VOLUME,
            images: images(layout, &whole, VOLUME),
            codeword: scattered::<F>(132, whole.len()),
            missing: vec![Tray(99); numbers.trays],
            states: Dice::new(133).bytes(numbers.trays),
        }
    }

    fn with_layout(self, layout: Layout<F>) -> Gather<F> {
        Gather { layout, ..self }
    }

    fn refusal(&self) -> Option<Refusal> {
        let refusal = self.run().err();
        assert_eq!(self.states().err(), refusal);
        refusal
    }
}

/// What stands at the places of rack 1, of which a tray is lost.
#[derive(Clone)]
pub struct GatherRack<F: Field> {
    pub layout: Layout<F>,
    pub volume: u32,
    pub rack: Rack,
    pub lost: Vec<Tray>,
    pub images: Vec<u8>,
    pub out: Vec<F::Symbol>,
}

impl<F: Tried> GatherRack<F> {
    pub fn run(&self) -> Result<Vec<F::Symbol>, Refusal> {
        let (images, out) = (&self.images, &self.out);
        gather_rack(self.layout, self.volume, self.rack, &self.lost, images, out)
    }
}

/// Changes a byte of the first image and of the last, which are not of the lost tray.
fn set<F: Tried>(case: &mut GatherRack<F>, at: usize, byte: u8) {
    let last = case.images.len() - image_length::<F>(16);
    for image in [0, last] {
        if let Some(place) = case.images.get_mut(image + at) {
            *place = byte;
        }
    }
}

impl<F: Tried> Case for GatherRack<F> {
    type Field = F;

    const FAULTS: &'static [Fault<GatherRack<F>>] = &[
        (Refusal::Layout, |case| case.layout = F::INADMISSIBLE.into()),
        (Refusal::Length, |case| case.images.push(0)),
        (Refusal::Length, |case| shorten(&mut case.out)),
        (Refusal::Number, |case| case.rack = Rack(4)),
        (Refusal::Number, |case| case.rack = Rack(u32::MAX)),
        (Refusal::Number, |case| case.lost.insert(0, Tray(0))),
        (Refusal::Number, |case| case.lost.push(Tray(u32::MAX))),
        (Refusal::Order, |case| {
            let tray = case.lost[0];
            case.lost.push(tray)
        }),
        (Refusal::Malformed, |case| set(case, 0, 25)),
        (Refusal::Malformed, |case| {
            set(case, 2, 3 - F::EDITION as u8)
        }),
        (Refusal::Malformed, |case| set(case, 8, 200)),
        (Refusal::Demonstration, |case| set(case, 3, DEMONSTRATION)),
        (Refusal::Other, |case| case.volume ^= 1),
        (Refusal::Other, |case| set(case, 6, F::ONE_LOST[2] as u8)),
        (Refusal::Other, |case| set(case, 8, 0)),
    ];

    const UNSEEN: &'static [Put<GatherRack<F>>] = &[|case, number| case.out.fill(number)];

    /// The lost tray is the second, whose place holds nothing.
    fn sound() -> GatherRack<F> {
        let whole = Gather::<F>::sound();
        let [_, size, ..] = F::SMALL_SHAPE;
        let length = image_length::<F>(16);
        let mut images = whole.images[size as usize * length..][..size as usize * length].to_vec();
        images[length..2 * length].fill(0);
        GatherRack {
            layout: whole.layout,
            volume: VOLUME,
            rack: Rack(1),
            lost: vec![Tray(size + 1)],
            images,
            out: scattered::<F>(134, size as usize * 16),
        }
    }

    fn with_layout(self, layout: Layout<F>) -> GatherRack<F> {
        GatherRack { layout, ..self }
    }

    fn refusal(&self) -> Option<Refusal> {
        self.run().err()
    }
}
