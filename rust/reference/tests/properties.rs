//! What the demands promise, on the second program itself.

mod common;

use common::{codeword, over_both_fields, scattered, Tried};
use reference::*;

over_both_fields! {
    what_is_stored_is_sound_and_comes_back,
}

/// How many layouts are admissible, and how many of them have one layer.
fn counted<F: Field>() -> (usize, usize) {
    let all = common::admissible::<F>();
    let single = all
        .iter()
        .filter(|layout| layout.numbers().unwrap().base == 1)
        .count();
    (all.len(), single)
}

#[test]
fn the_admissible_layouts_counted() {
    assert_eq!(counted::<Field256>(), (3344, 2655));
    assert_eq!(counted::<Field257>(), (3849, 3133));
}

#[test]
fn numbers_that_wrap_are_not_admitted() {
    let wrapping = [
        [1_431_655_768, 3, 3, 1],
        [858_993_463, 5, 5, 1],
        [1 << 31 | 4, 2, 2, 1],
        [1 << 30 | 4, 4, 4, 1],
        [1 << 28 | 2, 16, 16, 1],
        [32, 1, 1, 4],
        [16, 1, 1, 4],
        [32, 1, 1, 2],
        [2, 1, 1, 0],
        [4, 3, 264, 3],
        [4, 3, 8, 259],
        [5, 4, 271, 4],
        [u32::MAX; 4],
        [0; 4],
    ];
    for numbers in wrapping {
        let measured = [
            measure(Layout::<Field256>::from(numbers)),
            measure(Layout::<Field257>::from(numbers)),
        ];
        assert_eq!(measured, [Err(Refusal::Layout); 2], "{numbers:?}");
    }
}

fn what_is_stored_is_sound_and_comes_back<F: Tried>() {
    for shape in F::SHAPES {
        let layout = Layout::<F>::from(shape);
        let numbers = layout.numbers().unwrap();
        let whole = codeword(layout, 11);
        assert_eq!(test(layout, &whole), Ok(Tested::Sound));
        for first in 0..=numbers.dimension {
            let erased: Vec<Tray> = (first..first + numbers.checks)
                .map(|x| Tray(x as u32))
                .collect();
            let mut lost = whole.clone();
            let range = first * numbers.layers..(first + numbers.checks) * numbers.layers;
            lost[range.clone()].copy_from_slice(&scattered::<F>(12, range.len()));
            assert_eq!(recover(layout, &lost, &erased).as_ref(), Ok(&whole));
        }
        assert_eq!(recover(layout, &whole, &[]), Ok(whole));
    }
}

/// Grounds that stand together are given in order.
#[test]
fn the_first_ground_is_given() {
    let shape = Layout::<Field256>::from([4, 3, 8, 3]);
    let whole = codeword(shape, 17);
    let list = |numbers: &[u32]| numbers.iter().copied().map(Tray).collect::<Vec<Tray>>();
    let refused = |lent: &[u8], numbers: &[u32]| recover(shape, lent, &list(numbers)).unwrap_err();
    assert_eq!(refused(&whole[1..], &[12, 0]), Refusal::Length);
    assert_eq!(refused(&whole, &[12, 0]), Refusal::Number);
    assert_eq!(refused(&whole, &[4, 3, 2, 1, 0]), Refusal::Order);
    assert_eq!(refused(&whole, &[1, 1]), Refusal::Order);
    assert_eq!(refused(&whole, &[0, 1, 2, 3, 4]), Refusal::Count);
    let inadmissible = Layout::<Field256>::from([4, 3, 8, 4]);
    assert_eq!(
        recover(inadmissible, &whole, &list(&[12])),
        Err(Refusal::Layout)
    );
}
