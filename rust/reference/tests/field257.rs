//! W10: what is its own in the field of 257.

mod common;

use common::cases::{CopyImage, Recover, RepairMany, Scrub, WriteImage};
use common::{codeword, scattered, Dice};
use reference::image::HEADER;
use reference::*;

type F = Field257;

fn layout(numbers: [u32; 4]) -> Layout<F> {
    numbers.into()
}

/// A number that is no symbol.
const LARGE: u16 = 257;

/// The cabinet of source document 002: 20 trays of 32 symbols.
#[test]
fn racks_of_four() {
    let measured = measure(layout([5, 4, 15, 4])).unwrap();
    let expected = (32, 5, 64);
    assert_eq!(
        (measured.layers, measured.checks, measured.traffic),
        expected
    );
    let of_256 = Layout::<Field256>::from([5, 4, 15, 4]);
    assert_eq!(measure(of_256), Err(Refusal::Layout));
}

/// Data 5 and 7 in two racks of two: the points are 1, −1, 3 and −3, so the other
/// two add up to −12 and differ by 2/3.
#[test]
fn a_codeword_by_hand() {
    let layout = layout([2, 2, 2, 1]);
    let whole = vec![5, 7, 80, 165];
    assert_eq!(store(layout, &[5, 7], &[0; 4]), Ok(whole.clone()));
    assert_eq!((80 + 165 + 12) % 257, 0);
    assert_eq!((80 + 257 - 165) * 3 % 257, 2);
    assert_eq!(test(layout, &whole), Ok(Tested::Sound));
    let shares = share(layout, Rack(0), Rack(1), &whole[2..], &[0]).unwrap();
    assert_eq!(shares, [245]);
    let given = Given {
        lost: Tray(1),
        helpers: &[Rack(1)],
        shares: &shares,
        host: &[5, 9999],
    };
    assert_eq!(repair(layout, given, &[0], 0, 1).unwrap().spare, [7]);
}

#[test]
fn the_image_of_edition_2() {
    let layout = layout([2, 1, 1, 1]);
    let written = write_image(layout, Tray(1), 1, 7, &[256], &[0; 26]).unwrap();
    let expected = [
        0x18, 0x00, 0x02, 0x01, 0x02, 0x01, 0x01, 0x01, 0x01, 0x00, 0x00, 0x00, 0x07, 0x00, 0x00,
        0x00, 0x18, 0x00, 0x00, 0x00, 0x01, 0x00, 0x00, 0x00, 0x00, 0x01,
    ];
    assert_eq!(written, expected);
    let read = copy_image(layout, 7, &written, &[9999]);
    assert_eq!(read, Ok((Tray(1), vec![256])));
}

/// A reader of one edition refuses images of the other, also one of a length that
/// would fit.
#[test]
fn editions_do_not_mix() {
    let shape = [3, 1, 1, 2];
    let of_256 = Layout::<Field256>::from(shape);
    let first = write_image(of_256, Tray(1), 1, 7, &[5; 8], &[0; HEADER + 8]).unwrap();
    let second = write_image(layout(shape), Tray(1), 1, 7, &[5; 8], &[0; HEADER + 16]).unwrap();
    assert_eq!(read_image(of_256, 7, &second), Err(Refusal::Malformed));
    let copied = |image: &[u8]| copy_image(layout(shape), 7, image, &[0; 8]);
    assert_eq!(copied(&first), Err(Refusal::Malformed));
    assert_eq!(copied(&second), Ok((Tray(1), vec![5; 8])));
    let mut renamed = second.clone();
    renamed[2] = 1;
    assert_eq!(copied(&renamed), Err(Refusal::Malformed));
    assert_eq!(read_image(of_256, 7, &renamed), Err(Refusal::Malformed));
    let mut padded = first.clone();
    padded[2] = 2;
    padded.extend([0; 8]);
    assert_eq!(copied(&padded), Err(Refusal::Malformed));
    assert!(read_image(of_256, 7, &first).is_ok());
}

/// A symbol above 256 makes an image malformed, a demonstration one too, and also
/// one of another layout than expected.
#[test]
fn an_image_with_a_number_above_256() {
    for symbol in 0..8 {
        for (low, high, good) in [
            (0, 1, true),
            (1, 1, false),
            (0, 2, false),
            (255, 255, false),
        ] {
            for (state, of_good) in [(1, None), (2, Some(Refusal::Demonstration))] {
                let mut read = CopyImage::of(&WriteImage {
                    layout: layout([3, 1, 1, 2]),
                    tray: Tray(2),
                    state,
                    volume: 3,
                    symbols: vec![4; 8],
                    image: vec![0; HEADER + 16],
                });
                read.image[HEADER + 2 * symbol] = low;
                read.image[HEADER + 2 * symbol + 1] = high;
                let expected = if good {
                    of_good
                } else {
                    Some(Refusal::Malformed)
                };
                assert_eq!(read.run().err(), expected);
                read.layout = layout([2, 1, 1, 1]);
                read.places = vec![0];
                let other = of_good.unwrap_or(Refusal::Other);
                let expected = if good { other } else { Refusal::Malformed };
                assert_eq!(read.run(), Err(expected));
            }
        }
    }
}

/// The places lent are measured by the layout expected, before the image is
/// looked at.
#[test]
fn places_are_measured_first() {
    let read = |length| copy_image(layout([3, 1, 1, 2]), 7, &[], &vec![0; length]);
    assert_eq!(read(7), Err(Refusal::Length));
    assert_eq!(read(9), Err(Refusal::Length));
    assert_eq!(read(8), Err(Refusal::Malformed));
    let bad = copy_image(layout([3, 3, 3, 2]), 7, &[], &[]);
    assert_eq!(bad, Err(Refusal::Layout));
}

/// A piece of a repair looks at the shares of its own groups and at the sound
/// host symbols of their layers: a number above 256 in each place in turn.
#[test]
fn a_piece_looks_at_its_own_groups() {
    let layout = layout([3, 4, 6, 2]);
    let numbers = layout.numbers().unwrap();
    let whole = codeword(layout, 81);
    let lost = [4, 6].map(Tray);
    let dice = &mut Dice::new(82);
    let sound = RepairMany::whole(layout, &whole, &lost, &[Rack(0), Rack(2)], dice);
    let groups = numbers.groups as u64;
    for first in 0..=groups + 1 {
        for budget in [0, 1, 2, u64::MAX] {
            let end = first.saturating_add(budget).min(groups);
            let own = |group: usize| (first..end).contains(&(group as u64));
            let refused = |put: &dyn Fn(&mut RepairMany<F>)| {
                let mut case = sound.clone();
                (case.first, case.budget) = (first, budget);
                put(&mut case);
                case.run().err()
            };
            let beyond = (first > groups).then_some(Refusal::FirstGroup);
            let expected = |seen: bool| if seen { Some(Refusal::Number) } else { beyond };
            for at in 0..sound.shares.len() {
                let found = refused(&|case| case.shares[at] = LARGE);
                assert_eq!(found, expected(own(at % numbers.groups)));
            }
            for at in 0..sound.host.len() {
                let found = refused(&|case| case.host[at] = LARGE);
                let is_sound = [1, 3].contains(&(at / numbers.layers));
                let group = numbers.group(1, at % numbers.layers);
                assert_eq!(found, expected(is_sound && own(group)));
            }
        }
    }
}

/// What is looked at counts before the lists' order and length and before the
/// count, the host and the first group.
#[test]
fn later_grounds_do_not_hide_a_large_number() {
    let layout = layout([3, 4, 6, 2]);
    let whole = codeword(layout, 83);
    let dice = &mut Dice::new(84);
    let mut case = RepairMany::whole(layout, &whole, &[Tray(4)], &[Rack(0), Rack(2)], dice);
    case.set_lost(&[4, 5, 7]);
    assert_eq!(case.run(), Err(Refusal::LostCount));
    case.set_helpers(&[2, 1, 0]);
    assert_eq!(case.run(), Err(Refusal::Order));
    case.shares[0] = LARGE;
    assert_eq!(case.run(), Err(Refusal::Number));
    case.shares[0] = 0;
    case.host[2 * 8] = LARGE;
    assert_eq!(case.run(), Err(Refusal::Number));
    case.set_lost(&[6, 4, 4, 5]);
    assert_eq!(case.run(), Err(Refusal::Order));
    case.set_lost(&[]);
    case.set_helpers(&[0, 2]);
    assert_eq!(case.run(), Err(Refusal::LostCount));
}

/// Recovery looks at every tray that is not listed, however bad the list is.
#[test]
fn recovery_looks_at_the_trays_not_listed() {
    let layout = layout([3, 2, 3, 2]);
    let numbers = layout.numbers().unwrap();
    for (erased, ground) in [
        (vec![], None),
        (vec![1, 4], None),
        (vec![4, 1], Some(Refusal::Order)),
        (vec![1, 1], Some(Refusal::Order)),
        (vec![0, 1, 3, 4], Some(Refusal::Count)),
    ] {
        for tray in 0..numbers.trays {
            let mut case = Recover {
                layout,
                codeword: codeword(layout, 85),
                erased: erased.iter().copied().map(Tray).collect(),
            };
            case.codeword[tray * numbers.layers + tray] = LARGE;
            let listed = erased.contains(&(tray as u32));
            let expected = if listed {
                ground
            } else {
                Some(Refusal::Number)
            };
            assert_eq!(case.run().err(), expected);
        }
    }
}

/// A walk looks at the layers of its call.
#[test]
fn a_walk_looks_at_its_layers() {
    let layout = layout([3, 2, 3, 2]);
    for at in 0..6 * 8 {
        let mut symbols = codeword(layout, 86);
        symbols[at] = LARGE;
        for next in 0..=8 {
            for budget in [0, 1, 3, u64::MAX] {
                let case = Scrub {
                    layout,
                    codeword: symbols.clone(),
                    record: ScrubRecord {
                        next,
                        bad: 0,
                        first: 8,
                    },
                    budget,
                };
                let layers = u64::from(next)..u64::from(next).saturating_add(budget);
                let seen = layers.contains(&(at as u64 % 8));
                assert_eq!(case.run().err(), seen.then_some(Refusal::Number));
            }
        }
    }
}

/// A repair is exact whatever the symbols, the greatest among them.
#[test]
fn symbols_of_256() {
    let layout = layout([4, 4, 11, 3]);
    let numbers = layout.numbers().unwrap();
    let mut data = scattered::<F>(87, numbers.dimension * numbers.layers);
    data.iter_mut().step_by(3).for_each(|symbol| *symbol = 256);
    let whole = store(layout, &data, &vec![0; numbers.trays * numbers.layers]).unwrap();
    for lost in 0..numbers.trays {
        let host = lost / numbers.size;
        let helpers = &common::helper_sets(&numbers, host)[0];
        let lost = Tray(lost as u32);
        let case = RepairMany::whole(layout, &whole, &[lost], helpers, &mut Dice::new(88));
        let expected = common::tray_of(&numbers, &whole, lost);
        assert_eq!(case.run().unwrap().spare, expected);
    }
}
