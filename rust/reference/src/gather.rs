//! From what stands at the places of a cabinet to the buffers of the other calls.

use crate::field::Field;
use crate::image::{image_length, live_tray, symbols_of};
use crate::layout::{Layout, Numbers, Rack, Tray};
use crate::refusal::{refuse, rising, Refusal};
use crate::{ABSENT, DEMONSTRATION, LIVE};

/// What the n bytes of states lent hold afterwards.
pub fn states<F: Field>(
    layout: Layout<F>,
    volume: u32,
    images: &[u8],
    states: &[u8],
) -> Result<Vec<u8>, Refusal> {
    let numbers = layout.numbers()?;
    refuse(&[(
        Refusal::Length,
        !are_images::<F>(&numbers, images, numbers.trays) || states.len() != numbers.trays,
    )])?;
    let state = |found: Result<(), Refusal>| match found {
        Ok(()) => LIVE,
        Err(Refusal::Demonstration) => DEMONSTRATION,
        Err(_) => ABSENT,
    };
    let found = found::<F>(layout, volume, images, 0);
    Ok(found.into_iter().map(state).collect())
}

/// What gathering gives, and what the buffers lent hold afterwards.
#[derive(Clone, Debug, PartialEq, Eq)]
pub struct Gathered<S> {
    /// How many trays are missing.
    pub count: u32,
    pub codeword: Vec<S>,
    pub missing: Vec<Tray>,
}

/// The symbols of the trays that are there, zeros for the others, and these listed
/// in front of what the list held.
pub fn gather<F: Field>(
    layout: Layout<F>,
    volume: u32,
    images: &[u8],
    codeword: &[F::Symbol],
    missing: &[Tray],
) -> Result<Gathered<F::Symbol>, Refusal> {
    let numbers = layout.numbers()?;
    let wrong_length = !are_images::<F>(&numbers, images, numbers.trays)
        || codeword.len() != numbers.trays * numbers.layers
        || missing.len() != numbers.trays;
    refuse(&[(Refusal::Length, wrong_length)])?;
    let found = found::<F>(layout, volume, images, 0);
    let parts = images.chunks(image_length::<F>(numbers.layers));
    let symbols = parts.zip(&found).flat_map(|(part, found)| match found {
        Ok(()) => symbols_of::<F>(part).expect("a live image holds symbols"),
        Err(_) => vec![F::ZERO; numbers.layers],
    });
    let places = (0..).map(Tray).zip(&found);
    let mut listed: Vec<Tray> = places
        .filter(|(_, found)| found.is_err())
        .map(|(tray, _)| tray)
        .collect();
    let count = listed.len();
    listed.extend(&missing[count..]);
    Ok(Gathered {
        count: count as u32,
        codeword: symbols.collect(),
        missing: listed,
    })
}

/// What the u·L symbols lent hold afterwards: those of the trays that are not lost.
pub fn gather_rack<F: Field>(
    layout: Layout<F>,
    volume: u32,
    rack: Rack,
    lost: &[Tray],
    images: &[u8],
    out: &[F::Symbol],
) -> Result<Vec<F::Symbol>, Refusal> {
    let numbers = layout.numbers()?;
    let wrong_length = !are_images::<F>(&numbers, images, numbers.size)
        || out.len() != numbers.size * numbers.layers;
    refuse(&[(Refusal::Length, wrong_length)])?;
    let elsewhere = |tray: &Tray| !numbers.has_tray(*tray) || tray.0 / layout.size != rack.0;
    refuse(&[
        (
            Refusal::Number,
            !numbers.has_rack(rack) || lost.iter().any(elsewhere),
        ),
        (Refusal::Order, !rising(lost)),
    ])?;
    let first = rack.0 * layout.size;
    let found = found::<F>(layout, volume, images, first);
    let parts = images.chunks(image_length::<F>(numbers.layers)).enumerate();
    let looked_at: Vec<(usize, &[u8])> = parts
        .filter(|(place, _)| !lost.contains(&Tray(first + *place as u32)))
        .collect();
    let any = |ground| {
        let met = looked_at
            .iter()
            .any(|(place, _)| found[*place] == Err(ground));
        (ground, met)
    };
    refuse(&[
        any(Refusal::Malformed),
        any(Refusal::Demonstration),
        any(Refusal::Other),
    ])?;
    let mut gathered = out.to_vec();
    for (place, part) in looked_at {
        let symbols = symbols_of::<F>(part).expect("a live image holds symbols");
        gathered[place * numbers.layers..][..numbers.layers].copy_from_slice(&symbols);
    }
    Ok(gathered)
}

/// Whether the bytes are as many as so many images have.
fn are_images<F: Field>(numbers: &Numbers, images: &[u8], count: usize) -> bool {
    images.len() == count * image_length::<F>(numbers.layers)
}

/// What stands at each place, the first of which is this tray's: done where it is a
/// live image of the layout, the volume and the place, else why it is not. A live
/// image of another place is refused as one of another layout or volume is.
fn found<F: Field>(
    layout: Layout<F>,
    volume: u32,
    images: &[u8],
    first: u32,
) -> Vec<Result<(), Refusal>> {
    let numbers = layout.numbers().expect("the layout is admissible");
    let parts = images.chunks(image_length::<F>(numbers.layers));
    let at_place = |(place, part)| match live_tray::<F>(layout, volume, part)? {
        own if own == place => Ok(()),
        _ => Err(Refusal::Other),
    };
    (first..).map(Tray).zip(parts).map(at_place).collect()
}
