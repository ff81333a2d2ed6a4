//! W8: shares built up tray by tray, and W1's where e is given.

mod common;

use common::cases::fed;
use common::{codeword, over_both_fields, rack_of, scattered, tray_of, Dice, Tried};
use reference::*;

over_both_fields! {
    all_trays_in_any_order_make_the_shares,
    the_part_is_added_to_what_the_buffer_held,
    the_first_share_is_the_plain_one,
    the_weight_of_a_place,
}

/// The trays of a rack in some order.
fn shuffled(numbers: &Numbers, rack: Rack, dice: &mut Dice) -> Vec<Tray> {
    let first = rack.0 * numbers.size as u32;
    let mut trays: Vec<Tray> = (first..first + numbers.size as u32).map(Tray).collect();
    dice.shuffle(&mut trays);
    trays
}

/// Every host with every helper.
fn pairs(numbers: &Numbers) -> Vec<(Rack, Rack)> {
    let racks = 0..numbers.racks as u32;
    let of_host = |host| racks.clone().map(move |helper| (Rack(host), Rack(helper)));
    let all = racks.clone().flat_map(of_host);
    all.filter(|(host, helper)| host != helper).collect()
}

fn all_trays_in_any_order_make_the_shares<F: Tried>() {
    let mut dice = Dice::new(23);
    for shape in F::SHAPES.into_iter().chain(F::SHAPES_OF_MANY) {
        let layout = Layout::<F>::from(shape);
        let numbers = layout.numbers().unwrap();
        let whole = codeword(layout, 24);
        for count in 1..=numbers.most_lost() {
            for (host, helper) in pairs(&numbers) {
                let mut built = vec![F::ZERO; count * numbers.groups];
                for tray in shuffled(&numbers, helper, &mut dice) {
                    let symbols = tray_of(&numbers, &whole, tray);
                    built =
                        share_add_many(layout, count as u32, host, tray, &symbols, &built).unwrap();
                }
                let rack = rack_of(&numbers, &whole, helper.0 as usize);
                let out = scattered::<F>(25, built.len());
                let at_once = share_many(layout, count as u32, host, helper, &rack, &out);
                assert_eq!(at_once, Ok(built));
            }
        }
    }
}

/// What the buffer holds after a tray was fed so many times, and another tray
/// after the first feed; and what it holds after the other alone.
fn fed_times<F: Tried>(shape: [u32; 4], times: usize) -> Vec<[Vec<F::Symbol>; 2]> {
    let layout = Layout::<F>::from(shape);
    let numbers = layout.numbers().unwrap();
    let whole = codeword(layout, 26);
    let of_count = |count: usize| {
        let add = |share: Vec<F::Symbol>, tray: Tray| {
            let symbols = tray_of(&numbers, &whole, tray);
            share_add_many(layout, count as u32, Rack(0), tray, &symbols, &share).unwrap()
        };
        let held = scattered::<F>(27, count * numbers.groups);
        let (one, other) = (Tray(numbers.size as u32), Tray(numbers.trays as u32 - 1));
        let fed = (1..times).fold(add(add(held.clone(), one), other), |share, _| {
            add(share, one)
        });
        [fed, add(held, other)]
    };
    (1..=numbers.most_lost()).map(of_count).collect()
}

/// A tray fed twice cancels, whatever the buffer held and was fed between.
#[test]
fn fed_twice_cancels() {
    for shape in Field256::SHAPES_OF_MANY {
        for [fed, without] in fed_times::<Field256>(shape, 2) {
            assert_eq!(fed, without);
        }
    }
}

/// Modulo 257 a tray fed twice counts twice, and one fed 257 times cancels.
#[test]
fn fed_twice_counts_twice() {
    for shape in Field257::SHAPES_OF_MANY {
        let [once, twice, round] = [1, 2, 257].map(|times| fed_times::<Field257>(shape, times));
        for (count, [once, without]) in once.iter().enumerate() {
            assert_eq!(&round[count][0], without);
            let counted_again = once.iter().zip(without).map(|(&fed, &without)| {
                let part = Field257::subtract(fed, without);
                Field257::add(fed, part)
            });
            assert_eq!(twice[count][0], counted_again.collect::<Vec<u16>>());
            assert_ne!(&twice[count][0], without);
        }
    }
}

/// What is added hangs on the tray alone, not on what the buffer held.
fn the_part_is_added_to_what_the_buffer_held<F: Tried>() {
    let layout = Layout::<F>::from(F::SHAPES_OF_MANY[0]);
    let numbers = layout.numbers().unwrap();
    let whole = codeword(layout, 28);
    let zeros = vec![F::ZERO; numbers.groups];
    let greatest = F::negate(F::ONE);
    for held in [
        scattered::<F>(29, numbers.groups),
        vec![greatest; numbers.groups],
    ] {
        for (host, helper) in pairs(&numbers) {
            let tray = Tray(helper.0 * layout.size + 2);
            let part = fed(layout, &whole, host, tray, &zeros).run().unwrap();
            let after = fed(layout, &whole, host, tray, &held).run().unwrap();
            let both = held.iter().zip(&part);
            let sum: Vec<F::Symbol> = both.map(|(&a, &b)| F::add(a, b)).collect();
            assert_eq!(after, sum);
        }
    }
}

/// The shares for fewer lost trays are the first of those for more.
fn the_first_share_is_the_plain_one<F: Tried>() {
    let layout = Layout::<F>::from(F::SHAPES_OF_MANY[0]);
    let numbers = layout.numbers().unwrap();
    let rack = scattered::<F>(30, numbers.size * numbers.layers);
    let all = share_many(layout, 3, Rack(2), Rack(0), &rack, &[F::ZERO; 24]).unwrap();
    for count in 1..=3 {
        let length = count * numbers.groups;
        let fewer = share_many(
            layout,
            count as u32,
            Rack(2),
            Rack(0),
            &rack,
            &vec![F::ONE; length],
        );
        assert_eq!(fewer.unwrap(), all[..length]);
    }
    let plain = share(layout, Rack(2), Rack(0), &rack, &[F::ONE; 8]).unwrap();
    assert_eq!(plain, all[..8]);
}

/// One symbol at place g changes share m by z to the power g·m·(255/u), or 256/u,
/// times itself, at the symbol of its group.
fn the_weight_of_a_place<F: Tried>() {
    let layout = Layout::<F>::from(F::SHAPES_OF_MANY[0]);
    let numbers = layout.numbers().unwrap();
    // What share 1 multiplies place 1 by.
    let of_place_1 = F::power(F::ROOT, F::ORDER / numbers.size);
    for place in 0..numbers.size {
        for layer in 0..numbers.layers {
            let mut symbols = vec![F::ZERO; numbers.layers];
            symbols[layer] = F::ONE;
            let mut expected = vec![F::ZERO; 3 * numbers.groups];
            for m in 0..3 {
                let at = m * numbers.groups + numbers.group(1, layer);
                expected[at] = F::power(of_place_1, place * m);
            }
            let tray = Tray(3 * layout.size + place as u32);
            let shares = share_add_many(layout, 3, Rack(1), tray, &symbols, &[F::ZERO; 24]);
            assert_eq!(shares, Ok(expected));
        }
    }
}
