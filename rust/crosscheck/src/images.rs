//! What stands at the places of a cabinet: images of its trays, some of them
//! replaced by something that is no live image of the layout, volume and place.

use crate::cabinet::Cabinet;
use crate::field::{in_field, symbols, Field, Symbol};
use crate::random::Random;
use crate::source::Source;
use reference::image::image_length;
use reference::Tray;

/// What all images of a set are of.
#[derive(Clone, Copy, Debug)]
pub struct Kept {
    pub cabinet: Cabinet,
    pub volume: u32,
}

/// What may stand at a place that is no live image of it.
#[derive(Clone, Copy, Debug, PartialEq, Eq)]
pub enum Foreign {
    Zeros,
    Noise,
    /// One byte of the header is another.
    Header,
    /// Marked with the other field's edition.
    Edition,
    /// A number that is no symbol, in the field that has such; else a wrong count.
    Symbol,
    /// A demonstration image of the place, or of another volume and place.
    Demonstration,
    /// A demonstration image with volume number 0, as a reset tray comes up.
    Reset,
    /// A live image of another volume.
    Volume,
    /// A live image of another place.
    Place,
    /// A live image of another layout with as many layers, where there is one.
    Layout,
}

pub const FOREIGN: [Foreign; 10] = [
    Foreign::Zeros,
    Foreign::Noise,
    Foreign::Header,
    Foreign::Edition,
    Foreign::Symbol,
    Foreign::Demonstration,
    Foreign::Reset,
    Foreign::Volume,
    Foreign::Place,
    Foreign::Layout,
];

impl Foreign {
    /// The state of a place where this stands; none where it may be any but live.
    pub fn state(self) -> Option<u8> {
        match self {
            Foreign::Header => None,
            Foreign::Demonstration => Some(reference::DEMONSTRATION),
            _ => Some(reference::ABSENT),
        }
    }
}

/// A volume number that an image can have.
pub fn volume(random: &mut Random) -> u32 {
    let any = random.word() as u32 | 1;
    random.pick(&[1, 7, 255, 256, u32::MAX, any, any])
}

impl Kept {
    /// The bytes of an image.
    pub fn length(&self) -> usize {
        let layers = self.cabinet.numbers.layers;
        in_field!(self.cabinet.field, image_length::<F>(layers))
    }

    /// The images of a codeword's trays one after another, all live, by the second
    /// program.
    pub fn images(&self, codeword: &[Symbol]) -> Vec<u8> {
        let live = |tray| {
            let own = &codeword[self.cabinet.tray(tray)];
            written(&self.cabinet, tray, reference::LIVE, self.volume, own)
        };
        let trays = self.cabinet.tray_numbers().into_iter();
        trays.flat_map(live).collect()
    }

    /// A rack's part of the images.
    pub fn rack<'a>(&self, images: &'a [u8], rack: u32) -> &'a [u8] {
        let length = self.length() * self.cabinet.numbers.size;
        &images[rack as usize * length..][..length]
    }

    /// Puts bytes at a place; the first image is that of tray `first`.
    pub fn put(&self, images: &mut [u8], first: u32, tray: u32, image: &[u8]) {
        let at = (tray - first) as usize * self.length();
        images[at..][..self.length()].copy_from_slice(image);
    }

    /// What stands at a tray's place and is no live image of it.
    pub fn foreign(&self, source: &mut Source, tray: u32, kind: Foreign) -> Vec<u8> {
        let cabinet = &self.cabinet;
        let layers = cabinet.numbers.layers;
        let own = source.random.symbols(cabinet.field, layers);
        let live = |tray, volume| written(cabinet, tray, reference::LIVE, volume, &own);
        let mut image = live(tray, self.volume);
        match kind {
            Foreign::Zeros => image.fill(0),
            Foreign::Noise => image = source.random.bytes(image.len()),
            Foreign::Header => {
                let at = source.random.below(reference::image::HEADER);
                image[at] = image[at].wrapping_add(1 + source.random.below(255) as u8);
            }
            Foreign::Edition => image[2] = 3 - image[2],
            Foreign::Symbol if cabinet.field == Field::Of257 => {
                let at = reference::image::HEADER + 2 * source.random.place(layers);
                image[at..at + 2].copy_from_slice(&source.random.above().to_le_bytes());
            }
            Foreign::Symbol => image[20] ^= 1,
            Foreign::Demonstration => {
                let (other, volume) = (
                    other_tray(source, cabinet, tray),
                    volume(&mut source.random),
                );
                let (tray, volume) = source.random.pick(&[(tray, self.volume), (other, volume)]);
                image = written(cabinet, tray, reference::DEMONSTRATION, volume, &own);
            }
            Foreign::Reset => {
                image[3] = reference::DEMONSTRATION;
                image[12..16].fill(0);
            }
            Foreign::Volume => image = live(tray, other_volume(source, self.volume)),
            Foreign::Place => image = live(other_tray(source, cabinet, tray), self.volume),
            Foreign::Layout => match alike(source, cabinet) {
                Some(other) => {
                    let tray = tray.min(other.numbers.trays as u32 - 1);
                    image = written(&other, tray, reference::LIVE, self.volume, &own);
                }
                None => image = live(tray, other_volume(source, self.volume)),
            },
        }
        image
    }
}

/// An image by the second program.
fn written(cabinet: &Cabinet, tray: u32, state: u8, volume: u32, own: &[Symbol]) -> Vec<u8> {
    in_field!(cabinet.field, {
        let lent = vec![0; image_length::<F>(own.len())];
        let own = symbols::<F>(own);
        let layout = reference::Layout::<F>::from(cabinet.layout);
        reference::write_image(layout, Tray(tray), state.into(), volume, &own, &lent)
            .expect("the image can be written")
    })
}

fn other_tray(source: &mut Source, cabinet: &Cabinet, tray: u32) -> u32 {
    let trays = cabinet.numbers.trays;
    let steps = 1 + source.random.below(trays - 1);
    ((tray as usize + steps) % trays) as u32
}

fn other_volume(source: &mut Source, volume: u32) -> u32 {
    let other = volume ^ 1 << source.random.below(32);
    match other {
        0 => !volume,
        other => other,
    }
}

/// Another layout of the field with as many layers.
fn alike(source: &mut Source, cabinet: &Cabinet) -> Option<Cabinet> {
    let of_field = source.layouts.iter().filter(|of| of.field == cabinet.field);
    let all = of_field.flat_map(|of| of.flat.iter().chain(&of.small).chain(&of.large));
    let alike: Vec<Cabinet> = all
        .filter(|of| of.numbers.layers == cabinet.numbers.layers && of.layout != cabinet.layout)
        .copied()
        .collect();
    (!alike.is_empty()).then(|| source.random.pick(&alike))
}

#[cfg(test)]
mod tests {
    use super::*;
    use crate::source::EITHER;

    /// Each kind is what it is called, by the second program.
    #[test]
    fn nothing_foreign_is_live() {
        let mut source = Source::new(12);
        for _ in 0..300 {
            let cabinet = source.cabinet(EITHER);
            let kept = Kept {
                cabinet,
                volume: volume(&mut source.random),
            };
            let tray = source.random.below(cabinet.numbers.trays) as u32;
            let codeword = source.random.symbols(cabinet.field, cabinet.symbols());
            let good = kept.images(&codeword);
            let state = |images: &[u8]| {
                let lent = vec![9; cabinet.numbers.trays];
                let states = in_field!(cabinet.field, {
                    let layout = reference::Layout::<F>::from(cabinet.layout);
                    reference::states(layout, kept.volume, images, &lent)
                });
                states.expect("the lengths are right")[tray as usize]
            };
            assert_eq!(state(&good), reference::LIVE);
            for kind in FOREIGN {
                let mut images = good.clone();
                let image = kept.foreign(&mut source, tray, kind);
                kept.put(&mut images, 0, tray, &image);
                assert_ne!(state(&images), reference::LIVE, "{kind:?}");
                assert!(kind.state().is_none_or(|due| state(&images) == due));
            }
        }
    }
}
