//! The grounds of the calls: each single fault, and each two of different
//! grounds, of which the earlier is given; numbers that are no symbols, where
//! they are looked at and where they aren't.

mod common;

use common::cases::*;
use common::{over_both_fields, Tried};
use reference::*;

fn each_ground_in_order<C: Case>() {
    assert_eq!(C::sound().refusal(), None);
    let name = std::any::type_name::<C>();
    for (at, (expected, case)) in faulty::<C>().iter().enumerate() {
        assert_eq!(case.refusal(), Some(*expected), "{name}, case {at}");
    }
    for (at, (expected, case)) in with_unseen::<C>().iter().enumerate() {
        assert_eq!(case.refusal(), *expected, "{name}, unseen, case {at}");
    }
}

over_both_fields! {
    of_testing_storing_and_recovering,
    of_adding_to_a_share,
    of_the_shares,
    of_the_repairs,
    of_the_correcting_repair,
    of_the_cards,
    of_the_walk,
    of_reading_a_part,
    of_images,
    of_the_margin,
    from_trays_to_records,
    no_lost_tray,
    two_lost_where_one_is_the_most,
    counts_of_any_size,
}

fn of_testing_storing_and_recovering<F: Tried>() {
    each_ground_in_order::<Test<F>>();
    each_ground_in_order::<Store<F>>();
    each_ground_in_order::<Recover<F>>();
}

fn from_trays_to_records<F: Tried>() {
    each_ground_in_order::<RecoverCorrecting<F>>();
    each_ground_in_order::<TestKept<F>>();
    each_ground_in_order::<Gather<F>>();
    each_ground_in_order::<GatherRack<F>>();
}

fn of_adding_to_a_share<F: Tried>() {
    each_ground_in_order::<ShareAdd<F>>();
    each_ground_in_order::<ShareAddMany<F>>();
}

fn of_the_shares<F: Tried>() {
    each_ground_in_order::<Share<F>>();
    each_ground_in_order::<ShareMany<F>>();
}

fn of_the_repairs<F: Tried>() {
    each_ground_in_order::<Repair<F>>();
    each_ground_in_order::<RepairMany<F>>();
}

fn of_the_correcting_repair<F: Tried>() {
    each_ground_in_order::<Correct<F>>();
}

fn of_the_cards<F: Tried>() {
    each_ground_in_order::<CardPrint<F>>();
    each_ground_in_order::<CardTest<F>>();
    each_ground_in_order::<CardRepair<F>>();
}

fn of_the_walk<F: Tried>() {
    each_ground_in_order::<Scrub<F>>();
    let inadmissible = Layout::<F>::from(F::INADMISSIBLE);
    assert_eq!(scrub_reset(inadmissible), Err(Refusal::Layout));
    assert_eq!(measure(inadmissible), Err(Refusal::Layout));
}

fn of_reading_a_part<F: Tried>() {
    each_ground_in_order::<ReadPart<F>>();
}

fn of_images<F: Tried>() {
    each_ground_in_order::<WriteImage<F>>();
    each_ground_in_order::<CopyImage<F>>();
}

fn of_the_margin<F: Tried>() {
    each_ground_in_order::<Margin<F>>();
}

#[test]
fn the_new_grounds_have_their_numbers() {
    assert_eq!(Refusal::LostCount.number(), 12);
    assert_eq!(Refusal::NotRepaired.number(), 13);
    assert_eq!(Refusal::Shares.number(), 14);
    assert_eq!(Refusal::Card.number(), 15);
}

/// A lost list is measured by the rack of the first tray listed, and only then
/// by its order.
#[test]
fn lost_lists_that_are_not_one() {
    let refused = |lost: &[u32]| {
        let mut case = RepairMany::<Field256>::sound();
        case.set_lost(lost);
        case.refusal()
    };
    assert_eq!(refused(&[5, 2]), Some(Refusal::Number));
    assert_eq!(refused(&[2, 3]), Some(Refusal::Number));
    assert_eq!(refused(&[5, 3]), Some(Refusal::Order));
    assert_eq!(refused(&[4, 4]), Some(Refusal::Order));
    assert_eq!(refused(&[15, 16]), Some(Refusal::Number));
    assert_eq!(refused(&[3, 4, 5, 6]), Some(Refusal::Number));
    assert_eq!(refused(&[3, 4, 5, 5]), Some(Refusal::Order));
    assert_eq!(refused(&[3, 4, 5]), Some(Refusal::LostCount));
    assert_eq!(refused(&[4]), None);
}

/// With no lost tray there is no host rack, so the host is never a helper.
fn no_lost_tray<F: Tried>() {
    let mut case = RepairMany::<F>::sound();
    case.set_lost(&[]);
    case.first = 17;
    assert_eq!(case.refusal(), Some(Refusal::LostCount));
    case.set_helpers(&[0, 1]);
    assert_eq!(case.refusal(), Some(Refusal::Count));
    case.set_helpers(&[1, 0]);
    assert_eq!(case.refusal(), Some(Refusal::Order));
    case.set_helpers(&[5, 0]);
    assert_eq!(case.refusal(), Some(Refusal::Number));
    case.host.pop();
    assert_eq!(case.refusal(), Some(Refusal::Length));
    case.layout.racks = 0;
    assert_eq!(case.refusal(), Some(Refusal::Layout));
}

/// Two of a rack's trays with u − v = 1: they could be recovered, not repaired.
fn two_lost_where_one_is_the_most<F: Tried>() {
    let layout = Layout::<F>::from(F::ONE_LOST);
    let whole = common::codeword(layout, 18);
    let helpers = [1, 2, 3].map(Rack);
    let mut case = RepairMany::whole(
        layout,
        &whole,
        &[Tray(0)],
        &helpers,
        &mut common::Dice::new(19),
    );
    assert_eq!(case.refusal(), None);
    case.set_lost(&[0, 2]);
    assert_eq!(case.refusal(), Some(Refusal::LostCount));
    let erased = [Tray(0), Tray(2)];
    assert_eq!(recover(layout, &whole, &erased), Ok(whole));
}

/// Counts beyond every layout's are refused as any other.
fn counts_of_any_size<F: Tried>() {
    let layout = Layout::<F>::from([2, 1, 1, 1]);
    let seven = [common::symbol::<F>(7)];
    for count in [0, 2, 3, 255, 256, 65_536] {
        let share = vec![F::ONE; count as usize];
        let refused = share_many(layout, count, Rack(0), Rack(1), &seven, &share);
        assert_eq!(refused, Err(Refusal::LostCount));
        let refused = share_add_many(layout, count, Rack(0), Tray(1), &seven, &share);
        assert_eq!(refused, Err(Refusal::LostCount));
    }
    for count in [1 << 31, u32::MAX] {
        for shape in [[2, 1, 1, 1], [12, 1, 10, 11]] {
            let layout = Layout::<F>::from(shape);
            let layers = layout.numbers().unwrap().layers;
            let symbols = vec![F::ONE; layers];
            let refused = share_many(layout, count, Rack(0), Rack(1), &symbols, &[]);
            assert_eq!(refused, Err(Refusal::Length));
            let refused = share_add_many(layout, count, Rack(0), Tray(1), &symbols, &[]);
            assert_eq!(refused, Err(Refusal::Length));
        }
    }
    let lost = vec![Tray(0); 1 << 20];
    let given = GivenMany {
        lost: &lost,
        helpers: &[Rack(1)],
        shares: &vec![F::ZERO; lost.len()],
        host: &[F::ZERO],
    };
    let refused = repair_many(layout, given, &vec![F::ZERO; lost.len()], 0, 1);
    assert_eq!(refused, Err(Refusal::Order));
}
