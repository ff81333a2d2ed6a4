//! The slips that document 01 lists, each with a property that it would break.

mod common;

use common::{add_to_layer, codeword, over_both_fields, rack_of, scattered, seen_by_one};
use common::{shares, symbol, Tried};
use reference::checks::{point, Checks};
use reference::image::image_length;
use reference::*;

over_both_fields! {
    points_differ_and_so_do_their_powers,
    digit_0_is_the_lowest,
    a_share_sums_all_layers_of_a_group,
    lost_bytes_are_not_looked_at,
    every_check_tests_the_survivors,
    a_demonstration_is_called_one_first,
}

fn all_differ<F: Field>(symbols: Vec<F::Symbol>) -> bool {
    let mut symbols: Vec<u16> = symbols.into_iter().map(Into::into).collect();
    symbols.sort_unstable();
    symbols.windows(2).all(|pair| pair[0] != pair[1])
}

/// Slip 1: points that differ while their u-th powers don't.
fn points_differ_and_so_do_their_powers<F: Tried>() {
    for layout in common::admissible::<F>() {
        let numbers = layout.numbers().unwrap();
        assert!(numbers.trays * numbers.base <= F::ORDER);
        let mut points = vec![];
        let mut powers = vec![];
        for rack in 0..numbers.racks {
            for digit in 0..numbers.base {
                let place = |place| point::<F>(&numbers, rack, digit, place);
                points.extend((0..numbers.size).map(place));
                powers.push(F::power(place(0), numbers.size));
            }
        }
        assert!(
            all_differ::<F>(points) && all_differ::<F>(powers),
            "{layout:?}"
        );
    }
}

/// Slip 2: digit 0 taken as the highest. A rack's digit 0 changes with every
/// layer, and a group for host 0 holds s layers side by side.
fn digit_0_is_the_lowest<F: Tried>() {
    for shape in F::SHAPES {
        let numbers = Layout::<F>::from(shape).numbers().unwrap();
        let last = numbers.racks - 1;
        for layer in 0..numbers.layers {
            assert_eq!(numbers.digit(layer, 0), layer % numbers.base);
            assert_eq!(numbers.group(0, layer), layer / numbers.base);
            assert_eq!(numbers.digit(layer, last), layer / numbers.groups);
            assert_eq!(numbers.group(last, layer), layer % numbers.groups);
        }
    }
}

/// Slip 3: a share that copies the layers of digit zero. Every symbol of the
/// helper's rack changes the one share symbol of its group, whatever its digit.
fn a_share_sums_all_layers_of_a_group<F: Tried>() {
    for shape in F::SHAPES {
        let layout = Layout::<F>::from(shape);
        let numbers = layout.numbers().unwrap();
        let length = numbers.size * numbers.layers;
        let rack = scattered::<F>(3, length);
        let out = vec![F::ZERO; numbers.groups];
        for host in 1..numbers.racks {
            let share_of =
                |rack: &[F::Symbol]| share(layout, Rack(host as u32), Rack(0), rack, &out).unwrap();
            let before = share_of(&rack);
            for at in 0..length {
                let change = |place: &mut F::Symbol| *place = F::add(*place, symbol::<F>(0x53));
                let mut changed = rack.clone();
                change(&mut changed[at]);
                let mut expected = before.clone();
                change(&mut expected[numbers.group(host, at % numbers.layers)]);
                assert_eq!(share_of(&changed), expected);
            }
        }
    }
}

/// Slip 4: the old bytes of the lost tray, or of erased trays, used in a sum.
fn lost_bytes_are_not_looked_at<F: Tried>() {
    for shape in F::SHAPES {
        let layout = Layout::<F>::from(shape);
        let numbers = layout.numbers().unwrap();
        let whole = codeword(layout, 4);
        let helpers: Vec<Rack> = (1..=numbers.helpers as u32).map(Rack).collect();
        let shares = shares(layout, &whole, Rack(0), &helpers);
        let mut host = rack_of(&numbers, &whole, 0);
        host[..numbers.layers].copy_from_slice(&scattered::<F>(5, numbers.layers));
        let given = Given {
            lost: Tray(0),
            helpers: &helpers,
            shares: &shares,
            host: &host,
        };
        let spare = vec![F::ZERO; numbers.layers];
        let repaired = repair(layout, given, &spare, 0, u64::MAX).unwrap();
        assert_eq!(repaired.spare, whole[..numbers.layers]);

        let mut erased = whole.clone();
        erased[..numbers.layers].copy_from_slice(&scattered::<F>(6, numbers.layers));
        assert_eq!(recover(layout, &erased, &[Tray(0)]), Ok(whole));
    }
}

/// Slip 5: with fewer than r trays erased, survivors left untested. Survivors
/// with a damage that only one check sees are refused, whichever check that is.
fn every_check_tests_the_survivors<F: Tried>() {
    for shape in F::SHAPES {
        let layout = Layout::<F>::from(shape);
        let numbers = layout.numbers().unwrap();
        let checks = Checks::<F>::new(numbers);
        let layer = numbers.layers - 1;
        for seen in 0..numbers.checks {
            let damage = seen_by_one(&checks, numbers.checks, layer, seen);
            let mut damaged = codeword(layout, 7);
            add_to_layer::<F>(&numbers, &mut damaged, layer, &damage);
            let bad = Tested::Bad {
                layer: Layer(layer as u32),
                check: seen as u32,
            };
            assert_eq!(test(layout, &damaged), Ok(bad));
            for erased in [0, 1, numbers.checks - 1] {
                let list: Vec<Tray> = (0..erased as u32).map(Tray).collect();
                let refused = recover(layout, &damaged, &list) == Err(Refusal::Survivors);
                assert_eq!(
                    refused,
                    damage[erased..].iter().any(|&symbol| symbol != F::ZERO)
                );
            }
        }
    }
}

/// Slip 6: a tray refused for its volume before it is called a demonstration.
fn a_demonstration_is_called_one_first<F: Tried>() {
    let layout = Layout::<F>::from([3, 1, 1, 2]);
    let lent = vec![0; image_length::<F>(8)];
    let image = write_image(layout, Tray(1), 2, 7, &scattered::<F>(8, 8), &lent).unwrap();
    let other = Layout::from([2, 1, 1, 1]);
    let read = |expected: Layout<F>, volume, image: &[u8]| {
        let places = vec![F::ZERO; expected.numbers().unwrap().layers];
        copy_image(expected, volume, image, &places).unwrap_err()
    };
    for (expected, volume) in [(layout, 7), (layout, 8), (other, 7), (other, 8)] {
        assert_eq!(read(expected, volume, &image), Refusal::Demonstration);
    }
    let mut malformed = image;
    malformed[9] = 1;
    assert_eq!(read(layout, 7, &malformed), Refusal::Malformed);
}
