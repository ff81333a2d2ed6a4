//! Writing images, and reading those whose symbols are copied.

use super::{put_last, shorten, Case, Fault, Put};
use crate::common::{scattered, Tried};
use reference::image::{image_length, HEADER};
use reference::*;

#[derive(Clone)]
pub struct WriteImage<F: Field> {
    pub layout: Layout<F>,
    pub tray: Tray,
    pub state: u32,
    pub volume: u32,
    pub symbols: Vec<F::Symbol>,
    pub image: Vec<u8>,
}

impl<F: Field> WriteImage<F> {
    pub fn run(&self) -> Result<Vec<u8>, Refusal> {
        write_image(
            self.layout,
            self.tray,
            self.state,
            self.volume,
            &self.symbols,
            &self.image,
        )
    }
}

impl<F: Tried> Case for WriteImage<F> {
    type Field = F;

    const FAULTS: &'static [Fault<WriteImage<F>>] = &[
        (Refusal::Layout, |case| case.layout = F::INADMISSIBLE.into()),
        (Refusal::Length, |case| case.symbols.push(F::ONE)),
        (Refusal::Length, |case| case.image.push(1)),
        (Refusal::Length, |case| shorten(&mut case.image)),
        (Refusal::Number, |case| case.tray = Tray(u32::MAX)),
        (Refusal::Number, |case| {
            case.tray = Tray(4 * F::SMALL_SHAPE[1])
        }),
        (Refusal::Number, |case| case.state = 0),
        (Refusal::Number, |case| case.state = 3),
        (Refusal::Number, |case| case.state = 257),
        (Refusal::Number, |case| case.volume = 0),
    ];

    const SEEN: &'static [Put<WriteImage<F>>] = &[
        |case, number| case.symbols[0] = number,
        |case, number| put_last(&mut case.symbols, number),
    ];

    fn sound() -> WriteImage<F> {
        WriteImage {
            layout: F::SMALL_SHAPE.into(),
            tray: Tray(5),
            state: u32::from(LIVE),
            volume: 0x0102_0304,
            symbols: scattered::<F>(91, 16),
            image: vec![0xEE; image_length::<F>(16)],
        }
    }

    fn with_layout(self, layout: Layout<F>) -> WriteImage<F> {
        WriteImage { layout, ..self }
    }

    fn refusal(&self) -> Option<Refusal> {
        self.run().err()
    }
}

#[derive(Clone)]
pub struct CopyImage<F: Field> {
    pub layout: Layout<F>,
    pub volume: u32,
    pub image: Vec<u8>,
    pub places: Vec<F::Symbol>,
}

impl<F: Tried> CopyImage<F> {
    pub fn run(&self) -> Result<(Tray, Vec<F::Symbol>), Refusal> {
        copy_image(self.layout, self.volume, &self.image, &self.places)
    }

    /// The read of an image as expected.
    pub fn of(written: &WriteImage<F>) -> CopyImage<F> {
        CopyImage {
            layout: written.layout,
            volume: written.volume,
            image: written.run().unwrap(),
            places: scattered::<F>(92, written.symbols.len()),
        }
    }
}

/// An image that is longer than a header is changed in a byte of it.
fn set<F: Field>(case: &mut CopyImage<F>, at: usize, byte: u8) {
    if let Some(place) = case.image.get_mut(at) {
        *place = byte;
    }
}

impl<F: Tried> Case for CopyImage<F> {
    type Field = F;

    const FAULTS: &'static [Fault<CopyImage<F>>] = &[
        (Refusal::Layout, |case| case.layout = F::INADMISSIBLE.into()),
        (Refusal::Length, |case| case.places.push(F::ONE)),
        (Refusal::Length, |case| shorten(&mut case.places)),
        (Refusal::Malformed, |case| case.image.truncate(HEADER)),
        (Refusal::Malformed, |case| case.image.clear()),
        (Refusal::Malformed, |case| case.image.push(0)),
        (Refusal::Malformed, |case| shorten(&mut case.image)),
        (Refusal::Malformed, |case| {
            set(case, 2, 3 - F::EDITION as u8)
        }),
        (Refusal::Malformed, |case| set(case, 3, 0)),
        (Refusal::Malformed, |case| set(case, 5, 6)),
        (Refusal::Malformed, |case| set(case, 8, 200)),
        (Refusal::Malformed, |case| set(case, 9, 1)),
        (Refusal::Malformed, |case| set(case, 20, 17)),
        (Refusal::Demonstration, |case| set(case, 3, DEMONSTRATION)),
        (Refusal::Other, |case| case.volume ^= 1),
        (Refusal::Other, |case| set(case, 6, F::ONE_LOST[2] as u8)),
    ];

    const UNSEEN: &'static [Put<CopyImage<F>>] = &[|case, number| case.places.fill(number)];

    fn sound() -> CopyImage<F> {
        CopyImage::of(&WriteImage::sound())
    }

    fn with_layout(self, layout: Layout<F>) -> CopyImage<F> {
        CopyImage { layout, ..self }
    }

    fn refusal(&self) -> Option<Refusal> {
        self.run().err()
    }
}
