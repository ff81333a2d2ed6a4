//! The calls for many codewords: each part against the call for one, and the
//! grounds of a batch, which are those of its codewords and of its lists.

mod common;

use common::{codeword, over_both_fields, scattered, Dice, Tried};
use reference::batch::{interleaved, part};
use reference::*;

over_both_fields! {
    storing_each_part,
    lengths_of_storing,
    recovering_each_part,
    grounds_of_recovering,
    the_least_layer_and_codeword,
    testing_says_what_recovering_finds,
    sharing_each_part,
    grounds_of_sharing,
    repairing_each_part,
    a_tray_of_every_codeword_comes_back,
    grounds_of_repairing,
}

/// Numbers of codewords.
const MANY: [usize; 6] = [0, 1, 2, 3, 5, 17];

/// Numbers of codewords that no buffer has: with most lengths their product is
/// small in 64 or 32 bits only.
const HUGE: [u64; 5] = [1 << 32, 1 << 60, 1 << 63, u64::MAX, u64::MAX / 3 + 1];

#[test]
fn parts_of_a_buffer() {
    let buffer = [0, 10, 20, 1, 11, 21, 2, 12, 22, 3, 13, 23];
    let parts: Vec<Vec<u8>> = (0..3).map(|q| part(&buffer, 3, q)).collect();
    assert_eq!(parts[1], [10, 11, 12, 13]);
    assert_eq!(interleaved(&parts), buffer);
    assert_eq!(part(&buffer, 1, 0), buffer);
    assert!(interleaved::<u8>(&[]).is_empty());
}

/// The lengths of data and codeword.
fn lengths<F: Field>(layout: Layout<F>) -> [usize; 2] {
    let numbers = layout.numbers().unwrap();
    [numbers.dimension, numbers.trays].map(|trays| trays * numbers.layers)
}

fn storing_each_part<F: Tried>() {
    for shape in F::SHAPES {
        let layout = Layout::<F>::from(shape);
        let [data, codeword] = lengths(layout);
        for many in MANY {
            let data = scattered::<F>(211, many * data);
            let lent = scattered::<F>(212, many * codeword);
            let stored = store_batch(layout, many as u64, &data, &lent).unwrap();
            assert_eq!(stored.len(), lent.len());
            for q in 0..many {
                let [data, lent] = [&data, &lent].map(|buffer| part(buffer, many, q));
                assert_eq!(Ok(part(&stored, many, q)), store(layout, &data, &lent));
            }
        }
    }
}

fn lengths_of_storing<F: Tried>() {
    let layout = Layout::<F>::from(F::SMALL_SHAPE);
    let refused = |layout, many, data, codeword| {
        let [data, lent] = [data, codeword].map(|length| vec![F::ONE; length]);
        store_batch::<F>(layout, many, &data, &lent).err()
    };
    let [data, codeword] = lengths(layout);
    let length = Some(Refusal::Length);
    assert_eq!(refused(layout, 2, 2 * data, 2 * codeword), None);
    assert_eq!(refused(layout, 2, 2 * data - 1, 2 * codeword), length);
    assert_eq!(refused(layout, 2, 2 * data, 2 * codeword + 1), length);
    assert_eq!(refused(layout, 2, data, codeword), length);
    assert_eq!(refused(layout, 0, 0, 0), None);
    assert_eq!(refused(layout, 0, data, codeword), length);
    for many in HUGE {
        assert_eq!(refused(layout, many, 0, 0), length);
        assert_eq!(refused(layout, many, data, codeword), length);
    }
    let inadmissible = Layout::from(F::INADMISSIBLE);
    assert_eq!(refused(inadmissible, 0, 0, 0), Some(Refusal::Layout));
    for &large in F::LARGE {
        let mut numbers = vec![F::ONE; 3 * data];
        numbers[3 * data - 1] = large;
        let stored = store_batch(layout, 3, &numbers, &vec![large; 3 * codeword]);
        assert_eq!(stored, Err(Refusal::Number));
    }
}

/// So many codewords of a layout.
fn codewords<F: Tried>(layout: Layout<F>, many: usize) -> Vec<F::Symbol> {
    let parts: Vec<Vec<F::Symbol>> = (0..many as u64)
        .map(|q| codeword(layout, 220 + q))
        .collect();
    interleaved(&parts)
}

/// The same with any symbols in the trays listed.
fn without<F: Tried>(layout: Layout<F>, many: usize, erased: &[usize]) -> Vec<F::Symbol> {
    let length = layout.numbers().unwrap().layers * many;
    let mut codewords = codewords(layout, many);
    for &tray in erased {
        let noise = scattered::<F>(240 + tray as u64, length);
        codewords[tray * length..][..length].copy_from_slice(&noise);
    }
    codewords
}

fn trays(numbers: &[usize]) -> Vec<Tray> {
    numbers.iter().map(|&tray| Tray(tray as u32)).collect()
}

fn recovering_each_part<F: Tried>() {
    let mut dice = Dice::new(213);
    for shape in F::SHAPES {
        let layout = Layout::<F>::from(shape);
        let numbers = layout.numbers().unwrap();
        for many in MANY {
            let count = dice.below(numbers.checks + 1);
            let erased = dice.choose(count, numbers.trays);
            let lent = without(layout, many, &erased);
            let recovered = recover_batch(layout, many as u64, &lent, &trays(&erased));
            assert_eq!(recovered, Ok(codewords(layout, many)));
        }
    }
}

fn grounds_of_recovering<F: Tried>() {
    let layout = Layout::<F>::from(F::SMALL_SHAPE);
    let numbers = layout.numbers().unwrap();
    let refused = |many, codewords: &[F::Symbol], erased: &[usize]| {
        recover_batch::<F>(layout, many, codewords, &trays(erased)).err()
    };
    let whole = codewords(layout, 3);
    assert_eq!(refused(3, &whole, &[1, 4]), None);
    assert_eq!(refused(3, &whole[1..], &[1, 4]), Some(Refusal::Length));
    assert_eq!(refused(2, &whole, &[1, 4]), Some(Refusal::Length));
    // Lists are judged where there is no codeword too.
    let (most, first_too_many) = ((0..numbers.checks).collect::<Vec<_>>(), numbers.checks);
    let too_many: Vec<usize> = (0..=first_too_many).collect();
    for (many, codewords) in [(3, &whole[..]), (0, &[])] {
        assert_eq!(refused(many, codewords, &most), None);
        let outside = [4, 4, numbers.trays];
        assert_eq!(refused(many, codewords, &outside), Some(Refusal::Number));
        assert_eq!(refused(many, codewords, &[4, 4]), Some(Refusal::Order));
        assert_eq!(refused(many, codewords, &too_many), Some(Refusal::Count));
    }
    for many in HUGE {
        assert_eq!(refused(many, &[], &[]), Some(Refusal::Length));
        assert_eq!(refused(many, &whole, &[]), Some(Refusal::Length));
    }
    // A symbol of the last tray of each codeword in turn.
    for q in 0..3 {
        let mut damaged = whole.clone();
        let at = damaged.len() - 3 + q;
        damaged[at] = F::add(damaged[at], F::ONE);
        assert_eq!(refused(3, &damaged, &[1, 4]), Some(Refusal::Survivors));
        for &large in F::LARGE {
            damaged[at] = large;
            assert_eq!(refused(3, &damaged, &[4, 1]), Some(Refusal::Number));
            assert_eq!(refused(3, &damaged, &[numbers.trays - 1]), None);
        }
    }
}

/// Symbols are damaged one after another, and what is named is the least of them.
fn the_least_layer_and_codeword<F: Tried>() {
    let layout = Layout::<F>::from(F::SMALL_SHAPE);
    let (numbers, many) = (layout.numbers().unwrap(), 5);
    let tested = |codewords: &[F::Symbol]| test_batch::<F>(layout, 5, codewords, &trays(&[1]));
    let mut damaged = codewords(layout, many);
    assert_eq!(tested(&damaged), Ok(None));
    let mut least = (numbers.layers, many);
    for (layer, q) in [
        (9, 4),
        (9, 2),
        (12, 0),
        (9, 3),
        (3, 4),
        (3, 1),
        (0, 4),
        (0, 0),
    ] {
        let at = (2 * numbers.layers + layer) * many + q;
        damaged[at] = F::add(damaged[at], F::ONE);
        least = least.min((layer, q));
        let named = (Layer(least.0 as u32), least.1 as u64);
        assert_eq!(tested(&damaged), Ok(Some(named)));
    }
    // The same in the erased tray is not looked at.
    let mut unseen = codewords(layout, many);
    unseen[numbers.layers * many] = F::add(unseen[numbers.layers * many], F::ONE);
    assert_eq!(tested(&unseen), Ok(None));
}

fn testing_says_what_recovering_finds<F: Tried>() {
    let layout = Layout::<F>::from(F::SMALL_SHAPE);
    let numbers = layout.numbers().unwrap();
    let agree = |many, codewords: &[F::Symbol], erased: &[usize]| {
        let tested = test_batch::<F>(layout, many, codewords, &trays(erased));
        let recovered = recover_batch::<F>(layout, many, codewords, &trays(erased));
        match recovered {
            Ok(_) => assert_eq!(tested, Ok(None)),
            Err(Refusal::Survivors) => assert!(matches!(tested, Ok(Some(_)))),
            Err(ground) => assert_eq!(tested, Err(ground)),
        }
    };
    let mut whole = codewords(layout, 3);
    for _ in 0..2 {
        agree(3, &whole, &[]);
        agree(3, &whole, &[2, 5]);
        agree(3, &whole, &[5, 2]);
        agree(3, &whole, &[2, numbers.trays]);
        agree(3, &whole, &(0..numbers.checks).collect::<Vec<_>>());
        agree(3, &whole, &(0..=numbers.checks).collect::<Vec<_>>());
        agree(4, &whole, &[]);
        agree(0, &whole, &[]);
        agree(0, &[], &[]);
        agree(0, &[], &[5, 2]);
        let last = whole.len() - 1;
        whole[last] = F::add(whole[last], F::ONE);
    }
    for many in HUGE {
        agree(many, &[], &[]);
    }
}

fn sharing_each_part<F: Tried>() {
    for shape in F::SHAPES {
        let layout = Layout::<F>::from(shape);
        let numbers = layout.numbers().unwrap();
        for many in MANY {
            let rack = scattered::<F>(214, many * numbers.size * numbers.layers);
            let lent = scattered::<F>(215, many * numbers.groups);
            for host in 0..numbers.racks as u32 {
                let (host, helper) = (Rack(host), Rack(u32::from(host == 0)));
                let shared = share_batch(layout, many as u64, host, helper, &rack, &lent);
                let shared = shared.unwrap();
                assert_eq!(shared.len(), lent.len());
                for q in 0..many {
                    let [rack, lent] = [&rack, &lent].map(|buffer| part(buffer, many, q));
                    let alone = share(layout, host, helper, &rack, &lent);
                    assert_eq!(Ok(part(&shared, many, q)), alone);
                }
            }
        }
    }
}

fn grounds_of_sharing<F: Tried>() {
    let layout = Layout::<F>::from(F::SMALL_SHAPE);
    let numbers = layout.numbers().unwrap();
    let (of_rack, of_share) = (numbers.size * numbers.layers, numbers.groups);
    let refused = |many: u64, lengths: [usize; 2], host, helper| {
        let [rack, lent] = lengths.map(|length| vec![F::ONE; length]);
        share_batch(layout, many, Rack(host), Rack(helper), &rack, &lent).err()
    };
    let outside = numbers.racks as u32;
    for (many, lengths) in [(2, [2 * of_rack, 2 * of_share]), (0, [0, 0])] {
        assert_eq!(refused(many, lengths, 1, 0), None);
        assert_eq!(
            refused(many, lengths, outside, outside),
            Some(Refusal::Number)
        );
        assert_eq!(refused(many, lengths, 0, outside), Some(Refusal::Number));
        assert_eq!(refused(many, lengths, 1, 1), Some(Refusal::Host));
        let [rack, lent] = lengths;
        for other in [
            [rack + 1, lent],
            [rack, lent + 1],
            [rack + of_rack, lent + of_share],
        ] {
            assert_eq!(refused(many, other, outside, 1), Some(Refusal::Length));
        }
    }
    for many in HUGE {
        assert_eq!(refused(many, [0, 0], 1, 0), Some(Refusal::Length));
        assert_eq!(
            refused(many, [of_rack, of_share], 1, 0),
            Some(Refusal::Length)
        );
    }
    for &large in F::LARGE {
        let mut rack = vec![F::ONE; 3 * of_rack];
        rack[of_rack + 1] = large;
        let lent = vec![large; 3 * of_share];
        let shared = share_batch(layout, 3, Rack(1), Rack(1), &rack, &lent);
        assert_eq!(shared, Err(Refusal::Number));
    }
}

/// The lengths of shares, host rack and spare.
fn repair_lengths(numbers: &Numbers) -> [usize; 3] {
    [
        numbers.helpers * numbers.groups,
        numbers.size * numbers.layers,
        numbers.layers,
    ]
}

/// The first racks but that of the lost tray, which is the last one's first.
fn last_lost(numbers: &Numbers) -> (Tray, Vec<Rack>) {
    let lost = Tray((numbers.trays - numbers.size) as u32);
    (lost, (0..numbers.helpers as u32).map(Rack).collect())
}

fn repairing_each_part<F: Tried>() {
    for shape in F::SHAPES {
        let layout = Layout::<F>::from(shape);
        let numbers = layout.numbers().unwrap();
        let (lost, helpers) = last_lost(&numbers);
        let groups = numbers.groups as u64;
        for many in MANY {
            let lengths = repair_lengths(&numbers).map(|length| many * length);
            let [shares, host, spare] = lengths.map(|length| scattered::<F>(216, length));
            for (first, budget) in [(0, u64::MAX), (0, 1), (groups / 2, 2), (groups, 3)] {
                let of = |shares: &[F::Symbol], host: &[F::Symbol], spare: &[F::Symbol], many| {
                    let given = Given {
                        lost,
                        helpers: &helpers,
                        shares,
                        host,
                    };
                    match many {
                        Some(many) => repair_batch(layout, many, given, spare, first, budget),
                        None => repair(layout, given, spare, first, budget),
                    }
                };
                let all = of(&shares, &host, &spare, Some(many as u64)).unwrap();
                let count = |groups| groups * numbers.helpers as u64 * many as u64;
                assert_eq!(all.groups, budget.min(groups - first));
                assert_eq!(all.crossed, count(all.groups));
                assert_eq!(all.remaining, count(groups - first - all.groups));
                assert_eq!(all.spare.len(), spare.len());
                for q in 0..many {
                    let [shares, host, spare] =
                        [&shares, &host, &spare].map(|buffer| part(buffer, many, q));
                    let alone = of(&shares, &host, &spare, None).unwrap();
                    assert_eq!(part(&all.spare, many, q), alone.spare);
                    assert_eq!(all.groups, alone.groups);
                }
            }
        }
    }
}

/// Shares and repair of a batch bring back the tray, in two pieces.
fn a_tray_of_every_codeword_comes_back<F: Tried>() {
    let layout = Layout::<F>::from(F::SHAPE);
    let (numbers, many) = (layout.numbers().unwrap(), 3);
    let whole = codewords(layout, many);
    let (lost, helpers) = last_lost(&numbers);
    let racks: Vec<&[F::Symbol]> = whole.chunks(numbers.size * numbers.layers * many).collect();
    let host = Rack(numbers.racks as u32 - 1);
    let lent = vec![F::ONE; numbers.groups * many];
    let share = |helper: &Rack| {
        let rack = racks[helper.0 as usize];
        share_batch(layout, many as u64, host, *helper, rack, &lent).unwrap()
    };
    let shares: Vec<F::Symbol> = helpers.iter().flat_map(share).collect();
    let given = Given {
        lost,
        helpers: &helpers,
        shares: &shares,
        host: racks[host.0 as usize],
    };
    let mut spare = vec![F::ONE; numbers.layers * many];
    for (first, budget) in [(0, 3), (3, u64::MAX)] {
        let done = repair_batch(layout, many as u64, given, &spare, first, budget);
        spare = done.unwrap().spare;
    }
    let place = lost.0 as usize * numbers.layers * many;
    assert_eq!(spare, whole[place..place + spare.len()]);
}

fn grounds_of_repairing<F: Tried>() {
    let layout = Layout::<F>::from(F::SMALL_SHAPE);
    let numbers = layout.numbers().unwrap();
    let (lost, helpers) = last_lost(&numbers);
    let groups = numbers.groups as u64;
    let refused = |many: u64, lengths: [usize; 3], lost: u32, helpers: &[u32], first| {
        let [shares, host, spare] = lengths.map(|length| vec![F::ONE; length]);
        let helpers: Vec<Rack> = helpers.iter().copied().map(Rack).collect();
        let given = Given {
            lost: Tray(lost),
            helpers: &helpers,
            shares: &shares,
            host: &host,
        };
        repair_batch(layout, many, given, &spare, first, 1).err()
    };
    let (lost, helpers) = (
        lost.0,
        helpers.iter().map(|rack| rack.0).collect::<Vec<_>>(),
    );
    let (racks, trays) = (numbers.racks as u32, numbers.trays as u32);
    let each = repair_lengths(&numbers);
    for many in [0, 2] {
        let lengths = each.map(|length| many as usize * length);
        let of = |lost, helpers: &[u32], first| refused(many, lengths, lost, helpers, first);
        assert_eq!(of(lost, &helpers, groups), None);
        assert_eq!(of(lost, &helpers, groups + 1), Some(Refusal::FirstGroup));
        assert_eq!(of(0, &helpers, groups + 1), Some(Refusal::Host));
        assert_eq!(of(0, &helpers[1..], groups + 1), Some(Refusal::Count));
        assert_eq!(of(0, &[1, 0], groups + 1), Some(Refusal::Order));
        assert_eq!(of(0, &[1, 0, racks], groups + 1), Some(Refusal::Number));
        assert_eq!(of(trays, &[1, 0], groups + 1), Some(Refusal::Number));
        for at in 0..3 {
            let mut other = lengths;
            other[at] += 1;
            assert_eq!(refused(many, other, trays, &[], 0), Some(Refusal::Length));
        }
    }
    for many in HUGE {
        for lengths in [[0; 3], each] {
            assert_eq!(
                refused(many, lengths, lost, &helpers, 0),
                Some(Refusal::Length)
            );
        }
    }
}
