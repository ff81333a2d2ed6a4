//! The sixteen-tray box of document 02, and Example 1 of source 003.

mod common;

use common::cases::{faulted, Fault};
use common::sixteen::*;
use common::Dice;
use reference::sixteen::{self, field, h, point, points_of, polynomial, top, DIMENSION, TRAYS};
use reference::*;

fn each_ground_in_order<C: BoxCase>() {
    assert_eq!(C::sound().refusal(), None);
    let name = std::any::type_name::<C>();
    let faults: &[Fault<C>] = C::FAULTS;
    for (at, (expected, case)) in faulted(C::sound, faults).iter().enumerate() {
        assert_eq!(case.refusal(), Some(*expected), "{name}, case {at}");
    }
}

#[test]
fn each_call_names_the_first_ground() {
    each_ground_in_order::<BoxStore>();
    each_ground_in_order::<BoxRecover>();
    each_ground_in_order::<BoxData>();
    each_ground_in_order::<BoxShare>();
    each_ground_in_order::<BoxRepair>();
}

/// Lists of other lengths than two, with two shares.
#[test]
fn too_few_helpers_or_too_many() {
    for helpers in [&[][..], &[0], &[3], &[0, 1, 3], &[0, 1, 2, 3]] {
        let mut case = BoxRepair::sound();
        case.helpers = helpers.iter().copied().map(Rack).collect();
        assert_eq!(case.refusal(), Some(Refusal::Count));
    }
}

/// The data of the polynomial x, and those of h(x) = x + x^4.
#[test]
fn data_whose_words_are_known() {
    let points: Vec<u8> = (0..TRAYS).map(point).collect();
    let stored = |data: &[u8]| sixteen::store(data, &[0; TRAYS]).unwrap();
    assert_eq!(stored(&[0, 1, 0, 0, 0, 0, 0]), points);
    let y = |exponent| field::power(field::ROOT, exponent);
    let of_racks = [0, 1, y(5), y(10)].map(|value| [value; 4]).concat();
    assert_eq!(stored(&[0, 1, 0, 0, 1, 0, 0]), of_racks);
    assert_eq!(stored(&[9, 0, 0, 0, 0, 0, 0]), [9; TRAYS]);
}

/// Example 1: the trays at 1, y^5 and y^10 fail together. Theorem 1: for each j
/// the four racks' coefficients of x^j are values of a polynomial in h of degree
/// at most 1.
#[test]
fn example_1() {
    let mut dice = Dice::new(3);
    for _ in 0..50 {
        let word = word(&mut dice);
        let case = BoxRecover::of_word(word.clone(), &[1, 2, 3], &mut dice);
        assert_eq!(case.run(), Ok(word.clone()));
        let residue = |rack: usize| {
            let values = rack_of(&word, rack as u32);
            let pairs: Vec<(u8, u8)> = points_of(rack).into_iter().zip(values).collect();
            polynomial::through(&pairs)
        };
        let residues = [0, 1, 2, 3].map(residue);
        let in_h = |j: usize| {
            let pairs = [0, 1, 2, 3].map(|rack| (h(points_of(rack)[0]), residues[rack][j]));
            polynomial::through(&pairs)
        };
        assert!((0..4).all(|j| in_h(j)[2..] == [0, 0]));
    }
}

/// Of a word all four racks' shares are equal: for k = 7 the coefficient of h
/// in them is none. With a coefficient of x^7 they are not.
#[test]
fn shares_of_a_word_are_equal() {
    let mut dice = Dice::new(4);
    for _ in 0..50 {
        let word = word(&mut dice);
        let shares = [0, 1, 2, 3].map(|rack| top(rack, &rack_of(&word, rack as u32)));
        assert!(shares.iter().all(|share| *share == shares[0]));
    }
    let seventh = |rack| points_of(rack).map(|point| field::power(point, 7));
    let shares = [0, 1, 2, 3].map(|rack| top(rack, &seventh(rack)));
    assert_eq!(shares, [0, 1, 2, 3].map(|rack| h(points_of(rack)[0])));
}

/// The coefficient of x^3 through any four values of a rack is their sum.
#[test]
fn a_share_is_the_sum_of_its_values() {
    let mut dice = Dice::new(5);
    for rack in 0..4 {
        for _ in 0..50 {
            let values = symbols(&mut dice, 4);
            let sum = values.iter().fold(0, |sum, value| sum ^ value);
            assert_eq!(top(rack, &values), sum);
        }
    }
}

#[test]
fn every_tray_is_repaired_by_every_two_racks() {
    let mut dice = Dice::new(6);
    let word = word(&mut dice);
    for lost in 0..16 {
        let others: Vec<u32> = (0..4).filter(|&rack| rack != lost / 4).collect();
        for left_out in 0..3 {
            let mut helpers = others.clone();
            helpers.remove(left_out);
            let repaired = BoxRepair::of_word(&word, lost, &helpers, &mut dice).run();
            let repaired = repaired.unwrap();
            assert_eq!(repaired.crossed, 2);
            assert_eq!(repaired.spare, [word[lost as usize]]);
        }
    }
}

/// Every choice of at most nine trays, by its bits.
fn every_loss() -> impl Iterator<Item = Vec<u32>> {
    (0..1u32 << TRAYS)
        .filter(|set| set.count_ones() <= 9)
        .map(|set| (0..16).filter(|tray| set >> tray & 1 == 1).collect())
}

#[test]
fn word_and_data_come_back_from_any_seven_trays() {
    let mut dice = Dice::new(7);
    let data = symbols(&mut dice, DIMENSION);
    let word = sixteen::store(&data, &[0; TRAYS]).unwrap();
    for erased in every_loss() {
        let from = BoxRecover::of_word(word.clone(), &erased, &mut dice);
        assert_eq!(from.run().as_ref(), Ok(&word));
        let case = BoxData {
            from,
            data: dice.bytes(DIMENSION),
        };
        assert_eq!(case.run().as_ref(), Ok(&data));
    }
}

/// With at most eight erased, one survivor that is changed leaves no word: two
/// words differ in ten trays or more.
#[test]
fn one_changed_survivor_is_found() {
    let mut dice = Dice::new(8);
    let word = word(&mut dice);
    for erased in every_loss().step_by(7) {
        let mut case = BoxRecover::of_word(word.clone(), &erased, &mut dice);
        let mut changed = (0..TRAYS)
            .rev()
            .filter(|&tray| !erased.contains(&(tray as u32)));
        let changed = changed.next().expect("seven are left");
        case.values[changed] ^= 1 + dice.byte() % 15;
        let refusal = (erased.len() < 9).then_some(Refusal::Survivors);
        assert_eq!(case.refusal(), refusal);
    }
}
