//! W12: layouts with E = 1, and the repair from shares of which one may be wrong.

mod common;

use common::cases::Correct;
use common::{codeword, helper_sets, over_both_fields, scattered, shares, tray_of, Dice, Tried};
use reference::image::image_length;
use reference::repair::Repair;
use reference::*;

over_both_fields! {
    the_calls_that_work_with_both,
    the_calls_that_do_not,
    images_say_it_at_byte_9,
    true_shares_name_no_rack,
    a_wrong_share_is_named,
    wrong_in_different_groups_by_different_helpers,
    any_shares,
    every_value_of_one_share_symbol,
}

#[test]
fn the_conditions_of_a_layout() {
    let layers = |shape: [u32; 5]| {
        let measured = measure(Layout::<Field256>::from(shape));
        measured.ok().map(|measured| measured.layers)
    };
    assert_eq!(layers([6, 3, 5, 4, 1]), Some(64));
    assert_eq!(layers([6, 3, 5, 4, 0]), Some(4096));
    assert_eq!(layers([6, 3, 5, 5, 1]), Some(729));
    assert_eq!(layers([6, 3, 5, 3, 1]), Some(1));
    assert_eq!(layers([6, 3, 5, 2, 1]), None); // d below K + 2
    assert_eq!(layers([6, 3, 5, 6, 1]), None);
    assert_eq!(layers([3, 1, 1, 2, 1]), None);
    assert_eq!(layers([4, 1, 1, 3, 1]), Some(1));
    assert_eq!(layers([12, 5, 40, 11, 1]), Some(4096));
    assert_eq!(layers([13, 1, 9, 12, 1]), None); // 8,192 layers
    for errors in [2, 3, 256, 257, 1 << 31, u32::MAX] {
        assert_eq!(layers([6, 3, 5, 4, errors]), None);
    }
    let four = Layout::<Field256>::from([6, 3, 5, 4]);
    assert_eq!(four, Layout::from([6, 3, 5, 4, 0]));
}

/// The traffic is d·L/s with the smaller s.
#[test]
fn the_traffic() {
    let measured = measure(Layout::<Field256>::from([6, 3, 5, 4, 1])).unwrap();
    assert_eq!((measured.checks, measured.traffic), (13, 4 * 32));
}

fn the_calls_that_work_with_both<F: Tried>() {
    for shape in F::WARY_SHAPES {
        let layout = Layout::<F>::from(shape);
        let numbers = layout.numbers().unwrap();
        let whole = codeword(layout, 121);
        assert_eq!(test(layout, &whole), Ok(Tested::Sound));
        let erased: Vec<Tray> = (0..numbers.checks as u32).map(Tray).collect();
        let mut lost = whole.clone();
        lost[..numbers.checks * numbers.layers].fill(F::ZERO);
        assert_eq!(recover(layout, &lost, &erased).as_ref(), Ok(&whole));
        let (host, helper) = (Rack(1), Rack(3));
        let mut built = vec![F::ZERO; numbers.groups];
        for place in 0..numbers.size as u32 {
            let tray = Tray(helper.0 * layout.size + place);
            let symbols = tray_of(&numbers, &whole, tray);
            built = share_add(layout, host, tray, &symbols, &built).unwrap();
        }
        assert_eq!(built, shares(layout, &whole, host, &[helper]));
        let record = scrub_reset(layout).unwrap();
        let (report, _) = scrub(layout, &whole, record, u64::MAX).unwrap();
        assert_eq!(report, Report::Sound);
        let states = vec![LIVE; numbers.trays];
        assert_eq!(margin(layout, &states), Ok(numbers.checks as i32));
    }
}

/// Given all that they need but for E.
fn the_calls_that_do_not<F: Tried>() {
    for shape in F::WARY_SHAPES {
        let layout = Layout::<F>::from(shape);
        let numbers = layout.numbers().unwrap();
        let whole = codeword(layout, 122);
        let (lost, helpers) = (Tray(0), helper_sets(&numbers, 0)[0].clone());
        let case = Correct::of(layout, &whole, lost, &helpers, &mut Dice::new(123));
        let (given, lost_list) = (case.given(), [lost]);
        let spare = &case.spare;
        let refused = Refusal::Layout;
        assert_eq!(repair(layout, given, spare, 0, 1), Err(refused));
        let many = given.as_many(&lost_list);
        assert_eq!(repair_many(layout, many, spare, 0, 1), Err(refused));
        let (rack, out) = (&case.host, vec![F::ZERO; numbers.groups]);
        let shared = share_many(layout, 1, Rack(1), Rack(0), rack, &out);
        assert_eq!(shared, Err(refused));
        let added = share_add_many(layout, 1, Rack(1), lost, spare, &out);
        assert_eq!(added, Err(refused));
        let asked = Asked {
            tray: Tray(1),
            first: 0,
            end: 1,
        };
        assert_eq!(
            read_part(layout, &whole, spare, lost, 0, asked),
            Err(refused)
        );
    }
}

/// A layout with another E is another layout; one that is not admissible makes
/// the image malformed.
fn images_say_it_at_byte_9<F: Tried>() {
    let both = [[5, 1, 2, 4, 0], [5, 1, 2, 4, 1]].map(Layout::<F>::from);
    let image_of = |layout: Layout<F>| {
        let layers = layout.numbers().unwrap().layers;
        let lent = vec![0; image_length::<F>(layers)];
        let symbols = scattered::<F>(124, layers);
        write_image(layout, Tray(2), 1, 7, &symbols, &lent).unwrap()
    };
    let read = |layout: Layout<F>, image: &[u8]| {
        let places = vec![F::ZERO; layout.numbers().unwrap().layers];
        copy_image(layout, 7, image, &places).map(|(tray, _)| tray)
    };
    for (errors, layout) in both.into_iter().enumerate() {
        let mut image = image_of(layout);
        assert_eq!(image[8..12], [2, errors as u8, 0, 0]);
        assert_eq!(read(layout, &image), Ok(Tray(2)));
        assert_eq!(read(both[1 - errors], &image), Err(Refusal::Other));
        for byte in [1 - errors as u8, 2, 255] {
            // Of another length, or with no layout that could be.
            image[9] = byte;
            assert_eq!(read(layout, &image), Err(Refusal::Malformed));
        }
    }
}

/// Lost trays with some sets of helpers, for each layout.
fn cases<F: Tried>(seed: u64) -> Vec<(Correct<F>, Vec<F::Symbol>)> {
    let dice = &mut Dice::new(seed);
    let mut cases = vec![];
    for shape in F::WARY_SHAPES {
        let layout = Layout::<F>::from(shape);
        let numbers = layout.numbers().unwrap();
        let whole = codeword(layout, seed);
        let step = if numbers.layers > 100 { 5 } else { 1 };
        for lost in (0..numbers.trays).step_by(step) {
            let sets = helper_sets(&numbers, lost / numbers.size);
            let helpers = &sets[dice.below(sets.len())];
            let lost = Tray(lost as u32);
            let tray = tray_of(&numbers, &whole, lost);
            cases.push((Correct::of(layout, &whole, lost, helpers, dice), tray));
        }
    }
    cases
}

fn answer<F: Tried>(case: &Correct<F>, rack: u32, tray: &[F::Symbol]) {
    let numbers = case.layout.numbers().unwrap();
    let expected = Corrected {
        rack: Rack(rack),
        crossed: (numbers.helpers * numbers.groups) as u64,
        spare: tray.to_vec(),
    };
    assert_eq!(case.run(), Ok(expected));
}

fn true_shares_name_no_rack<F: Tried>() {
    for (case, tray) in cases::<F>(125) {
        answer(&case, case.layout.racks, &tray);
    }
}

/// In one symbol, in some, in all.
fn a_wrong_share_is_named<F: Tried>() {
    let dice = &mut Dice::new(126);
    for (case, tray) in cases::<F>(127) {
        let groups = case.layout.numbers().unwrap().groups;
        for (at, rack) in case.helpers.iter().enumerate() {
            for count in [1, groups.div_ceil(2), groups] {
                let mut wrong = case.clone();
                for group in dice.choose(count, groups) {
                    wrong = wrong.with_wrong(at, group, dice);
                }
                answer(&wrong, rack.0, &tray);
            }
        }
    }
}

/// Each group alone could be made right, all together cannot.
fn wrong_in_different_groups_by_different_helpers<F: Tried>() {
    let dice = &mut Dice::new(128);
    for (case, _) in cases::<F>(129) {
        let numbers = case.layout.numbers().unwrap();
        if numbers.groups > 1 {
            let groups = dice.choose(2, numbers.groups);
            let mut wrong = case.clone();
            for (helper, group) in dice.choose(2, numbers.helpers).into_iter().zip(groups) {
                wrong = wrong.with_wrong(helper, group, dice);
            }
            assert_eq!(wrong.run(), Err(Refusal::Shares));
        }
    }
}

/// Any shares at all, and shares with any errors: with the answer, the shares as
/// they are or with one of them left open have a solution, and no other helper's
/// has one unless none is named.
fn any_shares<F: Tried>() {
    let dice = &mut Dice::new(130);
    let mut met = [0; 3];
    for (case, _) in cases::<F>(131) {
        let numbers = case.layout.numbers().unwrap();
        for wrong in 0..4 {
            let mut any = case.clone();
            if wrong == 3 {
                any.shares = dice.symbols::<F>(any.shares.len());
            }
            for helper in dice.choose(wrong.min(2), numbers.helpers) {
                any = any.with_wrong(helper, dice.below(numbers.groups), dice);
            }
            let lost = [any.lost];
            let trays: Vec<Option<Vec<F::Symbol>>> = [None]
                .into_iter()
                .chain((0..numbers.helpers).map(Some))
                .map(|open| {
                    let many = any.given().as_many(&lost);
                    Repair::<F>::new(numbers, many, open).write(&any.spare, 0..numbers.groups)
                })
                .collect();
            let solved = trays.iter().flatten().count();
            match any.run() {
                Ok(done) if done.rack.0 == case.layout.racks => {
                    met[0] += 1;
                    assert!(trays.iter().all(|tray| *tray == Some(done.spare.clone())));
                }
                Ok(done) => {
                    met[1] += 1;
                    let at = any.helpers.iter().position(|&rack| rack == done.rack);
                    assert_eq!((solved, &trays[at.unwrap() + 1]), (1, &Some(done.spare)));
                }
                Err(refusal) => {
                    met[2] += 1;
                    assert_eq!((solved, refusal), (0, Refusal::Shares));
                }
            }
        }
    }
    assert!(met.iter().all(|&count| count > 10));
}

/// With one group, each helper's share is one symbol: whether the checks hold, or
/// can be made to, is found by trying all its values.
fn every_value_of_one_share_symbol<F: Tried>() {
    let dice = &mut Dice::new(132);
    let layout = Layout::<F>::from([4, 1, 1, 3, 1]);
    let numbers = layout.numbers().unwrap();
    let whole = codeword(layout, 133);
    let all = (0..=u16::MAX).map_while(|number| F::Symbol::try_from(number).ok());
    let values: Vec<F::Symbol> = all.filter(|&number| F::is_symbol(number)).collect();
    let tray = |case: &Correct<F>| {
        let lost = [case.lost];
        Repair::<F>::new(numbers, case.given().as_many(&lost), None).write(&case.spare, 0..1)
    };
    let mut met = [0; 3];
    for trial in 0..60 {
        let lost = Tray(dice.below(4) as u32);
        let helpers = &helper_sets(&numbers, lost.0 as usize)[0];
        let mut case = Correct::of(layout, &whole, lost, helpers, dice);
        for helper in dice.choose(trial % 4, 3) {
            case = case.with_wrong(helper, 0, dice);
        }
        let as_sent = tray(&case).map(|spare| (4, spare));
        let mut changed = vec![];
        for (at, rack) in helpers.iter().enumerate() {
            for &value in &values {
                let mut other = case.clone();
                other.shares[at] = value;
                let differs = other.shares[at] != case.shares[at];
                changed.extend(tray(&other).filter(|_| differs).map(|tray| (rack.0, tray)));
            }
        }
        // No two changes make the checks hold, and none where they hold.
        assert!(changed.len() + usize::from(as_sent.is_some()) <= 1);
        met[changed.len() + 2 * usize::from(as_sent.is_some())] += 1;
        let expected = as_sent.or(changed.pop()).ok_or(Refusal::Shares);
        assert_eq!(case.run().map(|done| (done.rack.0, done.spare)), expected);
    }
    assert!(met.iter().all(|&count| count > 3));
}

/// What is looked at of the field of 257: every share symbol, every symbol of the
/// host's sound trays, and nothing else.
#[test]
fn numbers_above_256() {
    let layout = Layout::<Field257>::from([5, 2, 3, 4, 1]);
    let whole = codeword(layout, 134);
    let helpers = [0, 1, 3, 4].map(Rack);
    let case = Correct::of(layout, &whole, Tray(5), &helpers, &mut Dice::new(135));
    let refused = |put: &dyn Fn(&mut Correct<Field257>)| {
        let mut with = case.clone();
        put(&mut with);
        with.run().err()
    };
    for at in 0..case.shares.len() {
        let found = refused(&|case| case.shares[at] = 257);
        assert_eq!(found, Some(Refusal::Number));
    }
    for at in 0..case.host.len() {
        let found = refused(&|case| case.host[at] = 257);
        assert_eq!(found, (at < 32).then_some(Refusal::Number));
    }
    assert_eq!(refused(&|case| case.spare.fill(9999)), None);
    let later = refused(&|case| {
        case.shares[0] = 257;
        case.helpers.reverse();
    });
    assert_eq!(later, Some(Refusal::Number));
}
