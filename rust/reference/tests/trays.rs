//! From trays to records: gathering from images, testing and recovering with trays
//! erased and one wrong.

mod common;

use common::cases::{images, Case, Gather, GatherRack, Recover, RecoverCorrecting, VOLUME};
use common::{codeword, over_both_fields, tray_of, Dice, Tried};
use reference::image::image_length;
use reference::*;

over_both_fields! {
    no_wrong_tray,
    a_wrong_tray_is_named,
    wrong_in_different_layers,
    two_wrong_of_one_layer,
    the_test_says_what_recovering_finds,
    what_is_there_is_gathered,
    states_of_all_kinds,
    a_rack_without_its_lost_tray,
    another_image_in_a_lost_place,
}

/// The cases of every shape: a codeword, and so many trays erased.
fn cases<F: Tried>(dice: &mut Dice) -> Vec<(Numbers, Vec<F::Symbol>, Recover<F>)> {
    let mut cases = vec![];
    for shape in F::SHAPES {
        let layout = Layout::from(shape);
        let numbers = layout.numbers().unwrap();
        let whole = codeword(layout, 141);
        for count in 0..=numbers.checks {
            let erased = dice.choose(count, numbers.trays);
            let mut codeword = whole.clone();
            for &tray in &erased {
                let place = tray * numbers.layers;
                codeword[place..place + numbers.layers].fill(F::ONE);
            }
            let mut case = Recover {
                layout,
                codeword,
                erased: vec![],
            };
            case.set_erased(erased.into_iter().map(|tray| tray as u32));
            cases.push((numbers, whole.clone(), case));
        }
    }
    cases
}

fn no_wrong_tray<F: Tried>() {
    for (numbers, whole, case) in cases::<F>(&mut Dice::new(142)) {
        let checks = (numbers.checks - case.erased.len()) as u32;
        let due = Recovered {
            tray: Tray(numbers.trays as u32),
            checks,
            codeword: whole,
        };
        assert_eq!(RecoverCorrecting(case).run(), Ok(due));
    }
}

/// A tray that is not erased.
fn survivor<F: Tried>(dice: &mut Dice, numbers: &Numbers, case: &Recover<F>) -> usize {
    loop {
        let tray = dice.below(numbers.trays);
        if !case.erased.contains(&Tray(tray as u32)) {
            return tray;
        }
    }
}

/// Changes a symbol of a tray.
fn spoil<F: Tried>(dice: &mut Dice, numbers: &Numbers, case: &mut Recover<F>, tray: usize) {
    let at = tray * numbers.layers + dice.below(numbers.layers);
    case.codeword[at] = F::add(case.codeword[at], dice.nonzero::<F>());
}

fn a_wrong_tray_is_named<F: Tried>() {
    let mut dice = Dice::new(143);
    for (numbers, whole, mut case) in cases::<F>(&mut dice) {
        let left = numbers.checks - case.erased.len();
        let tray = survivor(&mut dice, &numbers, &case);
        for _ in 0..1 + dice.below(3) {
            spoil(&mut dice, &numbers, &mut case, tray);
        }
        let wrong = tray_of(&numbers, &case.codeword, Tray(tray as u32));
        let found = RecoverCorrecting(case).run();
        match left {
            _ if wrong == tray_of(&numbers, &whole, Tray(tray as u32)) => {}
            0 => assert_eq!(found.unwrap().tray, Tray(numbers.trays as u32)),
            1 => assert_eq!(found, Err(Refusal::Survivors)),
            _ => {
                let found = found.unwrap();
                assert_eq!(found.tray, Tray(tray as u32));
                assert_eq!((found.checks, found.codeword), (left as u32, whole));
            }
        }
    }
}

/// Two trays, each wrong in a layer of its own, are not made right by one.
fn wrong_in_different_layers<F: Tried>() {
    let mut dice = Dice::new(144);
    for (numbers, _, mut case) in cases::<F>(&mut dice) {
        let one = survivor(&mut dice, &numbers, &case);
        let other = survivor(&mut dice, &numbers, &case);
        if one == other || case.erased.len() == numbers.checks {
            continue;
        }
        for (tray, layer) in [(one, 0), (other, numbers.layers - 1)] {
            let at = tray * numbers.layers + layer;
            case.codeword[at] = F::add(case.codeword[at], F::ONE);
        }
        assert_eq!(RecoverCorrecting(case).run(), Err(Refusal::Survivors));
    }
}

/// With three checks left two wrong trays of one layer are never taken for another
/// one. With two they may be: the second wrong symbols that name another are as many
/// as there are other survivors.
fn two_wrong_of_one_layer<F: Tried>() {
    let mut dice = Dice::new(145);
    for (numbers, _, mut case) in cases::<F>(&mut dice) {
        let left = numbers.checks - case.erased.len();
        let one = survivor(&mut dice, &numbers, &case);
        let other = survivor(&mut dice, &numbers, &case);
        if one == other || !(2..=3).contains(&left) {
            continue;
        }
        let layer = dice.below(numbers.layers);
        let [one, other] = [one, other].map(|tray| tray * numbers.layers + layer);
        case.codeword[one] = F::add(case.codeword[one], dice.nonzero::<F>());
        let sound = case.codeword[other];
        let mut named = 0;
        for power in 0..F::ORDER {
            case.codeword[other] = F::add(sound, F::power(F::ROOT, power));
            named += usize::from(RecoverCorrecting(case.clone()).run().is_ok());
        }
        let others = numbers.trays - case.erased.len() - 2;
        assert_eq!(named, if left == 2 { others } else { 0 });
    }
}

fn the_test_says_what_recovering_finds<F: Tried>() {
    let mut dice = Dice::new(146);
    for (numbers, _, mut case) in cases::<F>(&mut dice) {
        let kept = |case: &Recover<F>| test_kept(case.layout, &case.codeword, &case.erased);
        let checks = (numbers.checks - case.erased.len()) as u32;
        assert_eq!(kept(&case), Ok(Kept { bad: None, checks }));
        let tray = survivor(&mut dice, &numbers, &case);
        let layer = dice.below(numbers.layers);
        let at = tray * numbers.layers + layer;
        case.codeword[at] = F::add(case.codeword[at], F::ONE);
        let bad = (checks > 0).then_some(Layer(layer as u32));
        assert_eq!(kept(&case), Ok(Kept { bad, checks }));
        assert_eq!(case.run().is_err(), bad.is_some());
        if case.erased.is_empty() {
            let tested = test(case.layout, &case.codeword);
            assert!(matches!(tested, Ok(Tested::Bad { layer, .. }) if Some(layer) == bad));
        }
    }
}

/// Any r trays may be replaced by anything that is no live image of its place.
fn what_is_there_is_gathered<F: Tried>() {
    let mut dice = Dice::new(147);
    for shape in F::SHAPES {
        let layout = Layout::<F>::from(shape);
        let numbers = layout.numbers().unwrap();
        let whole = codeword(layout, 148);
        let good = images(layout, &whole, VOLUME);
        let length = image_length::<F>(numbers.layers);
        for count in 0..=numbers.checks {
            let gone = dice.choose(count, numbers.trays);
            let mut images = good.clone();
            for (at, &tray) in gone.iter().enumerate() {
                let image = &mut images[tray * length..][..length];
                match at % 5 {
                    0 => image[3] = DEMONSTRATION,
                    1 => image[8] = (image[8] + 1) % numbers.trays as u8,
                    2 => image[12] ^= 1,
                    3 => image.fill(0),
                    _ => image.copy_from_slice(&dice.bytes(length)),
                }
            }
            let (lent, list) = (vec![F::ONE; whole.len()], vec![Tray(99); numbers.trays]);
            let gathered = gather(layout, VOLUME, &images, &lent, &list).unwrap();
            let missing: Vec<Tray> = gone.iter().map(|&tray| Tray(tray as u32)).collect();
            assert_eq!(gathered.count as usize, missing.len());
            assert_eq!(gathered.missing[..count], missing);
            assert_eq!(gathered.missing[count..], list[count..]);
            for &tray in &missing {
                let zeros = vec![F::ZERO; numbers.layers];
                assert_eq!(tray_of(&numbers, &gathered.codeword, tray), zeros);
            }
            let recovered = recover(layout, &gathered.codeword, &missing);
            assert_eq!(recovered.as_ref(), Ok(&whole));
        }
    }
}

fn states_of_all_kinds<F: Tried>() {
    let mut case = Gather::<F>::sound();
    case.image(0)[3] = DEMONSTRATION;
    case.image(1)[8] = 0;
    case.image(2)[12] ^= 1;
    case.image(3).fill(0);
    case.image(4)[3] = DEMONSTRATION;
    case.image(4)[8] = 0; // of another place
    case.image(5)[3] = DEMONSTRATION;
    case.image(5)[12..16].fill(0); // a reset tray comes up with volume 0
    let mut due = vec![LIVE; case.states.len()];
    due[..6].copy_from_slice(&[2, 0, 0, 0, 2, 0]);
    assert_eq!(case.states(), Ok(due));
    let gathered = case.run().unwrap();
    assert_eq!(gathered.missing[..6], [0, 1, 2, 3, 4, 5].map(Tray));
    assert_eq!(gathered.count, 6);
}

fn a_rack_without_its_lost_tray<F: Tried>() {
    let case = GatherRack::<F>::sound();
    let whole = codeword(case.layout, 131);
    let size = F::SMALL_SHAPE[1] as usize;
    let gathered = case.run().unwrap();
    assert_eq!(gathered[16..32], case.out[16..32]);
    assert_eq!(gathered[..16], whole[size * 16..][..16]);
    assert_eq!(gathered[32..], whole[(size + 2) * 16..2 * size * 16]);
    let none_lost = GatherRack {
        lost: vec![],
        ..case.clone()
    };
    assert_eq!(none_lost.run(), Err(Refusal::Malformed));
    let all_lost = GatherRack {
        lost: (0..size).map(|place| Tray((size + place) as u32)).collect(),
        ..case.clone()
    };
    assert_eq!(all_lost.run(), Ok(case.out));
}

/// What stands in the place of a lost tray has no effect.
fn another_image_in_a_lost_place<F: Tried>() {
    let case = GatherRack::<F>::sound();
    let length = image_length::<F>(16);
    for seed in 0..20 {
        let mut other = case.clone();
        other.images[length..2 * length].copy_from_slice(&Dice::new(seed).bytes(length));
        assert_eq!(other.run(), case.run());
    }
}
