//! Tray images.

use crate::field::Field;
use crate::field256::Field256;
use crate::layout::{Layout, Tray};
use crate::refusal::{refuse, Refusal};
use crate::{DEMONSTRATION, LIVE};

/// The length of the header.
pub const HEADER: usize = 24;

/// A number in the header: where it stands and its bytes, lowest first.
#[derive(Clone, Copy)]
struct Entry {
    at: usize,
    bytes: usize,
}

const STATE: Entry = Entry { at: 3, bytes: 1 };
const RACKS: Entry = Entry { at: 4, bytes: 1 };
const SIZE: Entry = Entry { at: 5, bytes: 1 };
const DIMENSION: Entry = Entry { at: 6, bytes: 1 };
const HELPERS: Entry = Entry { at: 7, bytes: 1 };
const TRAY: Entry = Entry { at: 8, bytes: 1 };
const ERRORS: Entry = Entry { at: 9, bytes: 1 };
const VOLUME: Entry = Entry { at: 12, bytes: 4 };
const COUNT: Entry = Entry { at: 20, bytes: 4 };

/// The numbers that are the same in every header of a field: its length, the
/// edition, the zero bytes, the offset of the symbols.
fn fixed<F: Field>() -> [(Entry, u32); 4] {
    [
        (Entry { at: 0, bytes: 2 }, HEADER as u32),
        (Entry { at: 2, bytes: 1 }, F::EDITION),
        (Entry { at: 10, bytes: 2 }, 0),
        (Entry { at: 16, bytes: 4 }, HEADER as u32),
    ]
}

impl Entry {
    fn read(self, image: &[u8]) -> u32 {
        let bytes = &image[self.at..self.at + self.bytes];
        bytes
            .iter()
            .rev()
            .fold(0, |number, &byte| number << 8 | u32::from(byte))
    }

    fn write(self, image: &mut [u8], number: u32) {
        for byte in 0..self.bytes {
            image[self.at + byte] = (number >> (8 * byte)) as u8;
        }
    }
}

/// The length of an image with so many symbols.
pub fn image_length<F: Field>(symbols: usize) -> usize {
    HEADER + F::BYTES * symbols
}

/// What the lent bytes of the image hold afterwards.
pub fn write_image<F: Field>(
    layout: Layout<F>,
    tray: Tray,
    state: u32,
    volume: u32,
    symbols: &[F::Symbol],
    image: &[u8],
) -> Result<Vec<u8>, Refusal> {
    let numbers = layout.numbers()?;
    let wrong_length =
        symbols.len() != numbers.layers || image.len() != image_length::<F>(numbers.layers);
    let outside = !numbers.has_tray(tray) || !is_state(state) || !is_volume(volume);
    refuse(&[
        (Refusal::Length, wrong_length),
        (Refusal::Number, outside || !F::are_symbols(symbols)),
    ])?;
    let mut written = vec![0; HEADER];
    fixed::<F>()
        .iter()
        .for_each(|(entry, number)| entry.write(&mut written, *number));
    STATE.write(&mut written, state);
    RACKS.write(&mut written, layout.racks);
    SIZE.write(&mut written, layout.size);
    DIMENSION.write(&mut written, layout.dimension);
    HELPERS.write(&mut written, layout.helpers);
    TRAY.write(&mut written, tray.0);
    ERRORS.write(&mut written, layout.errors);
    VOLUME.write(&mut written, volume);
    COUNT.write(&mut written, numbers.layers as u32);
    for &symbol in symbols {
        written.extend(&symbol.into().to_le_bytes()[..F::BYTES]);
    }
    Ok(written)
}

/// What reading an image of edition 1 gives: its symbols are a part of it.
#[derive(Clone, Copy, Debug, PartialEq, Eq)]
pub struct Image<'a> {
    pub tray: Tray,
    pub symbols: &'a [u8],
}

/// The tray number and the symbols of a live image of the layout and volume
/// expected.
pub fn read_image(
    layout: Layout<Field256>,
    volume: u32,
    image: &[u8],
) -> Result<Image<'_>, Refusal> {
    layout.numbers()?;
    Ok(Image {
        tray: live_tray(layout, volume, image)?,
        symbols: &image[HEADER..],
    })
}

/// The same for an image whose symbols are copied: the tray number, and what the
/// L places lent hold afterwards.
pub fn copy_image<F: Field>(
    layout: Layout<F>,
    volume: u32,
    image: &[u8],
    places: &[F::Symbol],
) -> Result<(Tray, Vec<F::Symbol>), Refusal> {
    let numbers = layout.numbers()?;
    refuse(&[(Refusal::Length, places.len() != numbers.layers)])?;
    let tray = live_tray(layout, volume, image)?;
    let symbols = symbols_of::<F>(image).expect("a well-formed image holds symbols");
    Ok((tray, symbols))
}

/// The tray of a live image of the layout and volume expected: the grounds past
/// the layout's.
pub(crate) fn live_tray<F: Field>(
    layout: Layout<F>,
    volume: u32,
    image: &[u8],
) -> Result<Tray, Refusal> {
    refuse(&[(Refusal::Malformed, !well_formed::<F>(image))])?;
    let other = own_layout(image) != layout || VOLUME.read(image) != volume;
    refuse(&[
        (
            Refusal::Demonstration,
            STATE.read(image) == u32::from(DEMONSTRATION),
        ),
        (Refusal::Other, other),
    ])?;
    Ok(Tray(TRAY.read(image)))
}

/// The states an image can be written or read with.
fn is_state(state: u32) -> bool {
    [LIVE, DEMONSTRATION].map(u32::from).contains(&state)
}

/// The volume numbers an image can have: a reset tray comes up with 0.
fn is_volume(volume: u32) -> bool {
    volume != 0
}

/// The layout an image names.
fn own_layout<F>(image: &[u8]) -> Layout<F> {
    Layout::from([RACKS, SIZE, DIMENSION, HELPERS, ERRORS].map(|entry| entry.read(image)))
}

/// The numbers after the header, low byte first, none where one is no symbol.
pub(crate) fn symbols_of<F: Field>(image: &[u8]) -> Option<Vec<F::Symbol>> {
    let number = |bytes: &[u8]| {
        let number = bytes
            .iter()
            .rev()
            .fold(0, |n, &byte| n << 8 | u16::from(byte));
        F::Symbol::try_from(number).ok()
    };
    let symbol = |bytes| number(bytes).filter(|&number| F::is_symbol(number));
    image[HEADER..].chunks(F::BYTES).map(symbol).collect()
}

/// The rules of the header, all about the image's own layout, and of its
/// symbols.
fn well_formed<F: Field>(image: &[u8]) -> bool {
    if image.len() < HEADER {
        return false;
    }
    let Ok(own) = own_layout::<F>(image).numbers() else {
        return false;
    };
    fixed::<F>()
        .iter()
        .all(|(entry, number)| entry.read(image) == *number)
        && is_state(STATE.read(image))
        && is_volume(VOLUME.read(image))
        && own.has_tray(Tray(TRAY.read(image)))
        && COUNT.read(image) as usize == own.layers
        && image.len() == image_length::<F>(own.layers)
        && symbols_of::<F>(image).is_some()
}
