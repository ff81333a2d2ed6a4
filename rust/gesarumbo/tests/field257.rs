//! What is its own in the field of 257: numbers above 256, where a call looks at them and where it
//! does not; the signs; the images of edition 2.

use gesarumbo::field257::*;
use gesarumbo::{
    Kept, Layer, Layout, Rack, Recovered, Refusal, ScrubRecord, Scrubbed, Tested, Tray,
};
use gesarumbo::{DEMONSTRATION, LIVE};

/// Five racks of four trays of 32 symbols, of source 002; and three racks of two of 8.
const FOURS: Layout = Layout::new(5, 4, 15, 4);
const TWOS: Layout = Layout::new(3, 2, 3, 2);

const LARGE: u16 = 257;

/// A codeword of FOURS with the greatest symbol in every third place of its data.
fn codeword() -> Vec<u16> {
    let mut data: Vec<u16> = (0..15 * 32).map(|at| at * 7 % 257).collect();
    data.iter_mut().step_by(3).for_each(|symbol| *symbol = 256);
    let mut codeword = vec![0; 20 * 32];
    store(FOURS, &data, &mut codeword).expect("the data are symbols");
    codeword
}

/// The racks but the host, and their shares for it.
fn helpers_and_shares(codeword: &[u16], host: u32) -> (Vec<Rack>, Vec<u16>) {
    let helpers: Vec<Rack> = (0..5).filter(|&rack| rack != host).map(Rack::new).collect();
    let mut shares = vec![LARGE; 4 * 16];
    for (helper, sent) in helpers.iter().zip(shares.chunks_mut(16)) {
        let rack = &codeword[helper.number() as usize * 128..][..128];
        share(FOURS, Rack::new(host), *helper, rack, sent).expect("a share is worked out");
    }
    (helpers, shares)
}

#[test]
fn every_tray_is_repaired_from_64_symbols() {
    let codeword = codeword();
    assert_eq!(test(FOURS, &codeword), Ok(Tested::Sound));
    assert!(codeword.iter().all(|&symbol| symbol <= 256));
    for lost in 0..20 {
        let host = lost / 4;
        let (helpers, shares) = helpers_and_shares(&codeword, host as u32);
        let mut own = codeword[host * 128..][..128].to_vec();
        own[lost % 4 * 32..][..32].fill(LARGE);
        let mut spare = [LARGE; 32];
        let mut piece = |first, budget| {
            let tray = Tray::new(lost as u32);
            let done = repair(
                FOURS, tray, &helpers, &shares, &own, &mut spare, first, budget,
            );
            done.map(|done| (done.groups, done.crossed, done.remaining))
        };
        assert_eq!(piece(0, 5), Ok((5, 20, 44)));
        assert_eq!(piece(5, u64::MAX), Ok((11, 44, 0)));
        assert_eq!(spare, codeword[lost * 32..][..32]);
    }
}

#[test]
fn five_trays_are_recovered() {
    let whole = codeword();
    let mut codeword = whole.clone();
    let erased = [0, 6, 7, 13, 19].map(Tray::new);
    for tray in erased {
        codeword[tray.number() as usize * 32..][..32].fill(LARGE);
    }
    assert_eq!(recover(FOURS, &mut codeword, &erased), Ok(()));
    assert_eq!(codeword, whole);
    codeword[33] = LARGE;
    assert_eq!(test(FOURS, &codeword), Err(Refusal::Number));
    assert_eq!(recover(FOURS, &mut codeword, &erased), Err(Refusal::Number));
    assert_eq!(recover(FOURS, &mut codeword, &[Tray::new(1)]), Ok(()));
    assert_eq!(codeword, whole);
}

/// A number above 256 counts in a tray that is not listed, whatever else is wrong with the list, and
/// not in an erased one.
#[test]
fn a_wrong_tray_is_one_of_symbols() {
    let whole = codeword();
    let mut codeword = whole.clone();
    codeword[6 * 32..7 * 32].fill(LARGE);
    for layer in 0..32 {
        let symbol = &mut codeword[19 * 32 + layer];
        *symbol = (*symbol + 256) % 257;
    }
    let (erased, falling) = ([Tray::new(6)], [6, 5].map(Tray::new));
    let bad = Kept::Bad {
        layer: Layer::new(0),
        checks: 4,
    };
    assert_eq!(test_kept(FOURS, &codeword, &erased), Ok(bad));
    let named = Recovered {
        tray: Some(Tray::new(19)),
        checks: 4,
    };
    assert_eq!(recover_correcting(FOURS, &mut codeword, &erased), Ok(named));
    assert_eq!(codeword, whole);
    codeword[19 * 32 + 31] = LARGE;
    for list in [&erased[..], &falling, &[]] {
        assert_eq!(test_kept(FOURS, &codeword, list), Err(Refusal::Number));
        let refused = recover_correcting(FOURS, &mut codeword, list);
        assert_eq!(refused, Err(Refusal::Number));
    }
    assert_eq!(codeword[19 * 32 + 31], LARGE);
}

/// An image of edition 2 that holds a number above 256 is malformed: its tray is missing.
#[test]
fn a_tray_with_a_number_above_256_is_not_there() {
    let whole = codeword();
    let mut images = vec![0; 20 * 88];
    for (tray, image) in (0..).map(Tray::new).zip(images.chunks_mut(88)) {
        let symbols = &whole[tray.number() as usize * 32..][..32];
        write_image(FOURS, tray, LIVE.into(), 7, symbols, image).expect("it is written");
    }
    images[13 * 88 - 1] = 1;
    images[13 * 88 - 2] = 1; // the last symbol of tray 12 is 257
    let (mut gathered, mut missing) = (vec![LARGE; 20 * 32], [Tray::new(LARGE.into()); 20]);
    assert_eq!(
        gather(FOURS, 7, &images, &mut gathered, &mut missing),
        Ok(1)
    );
    assert_eq!(missing[..2], [12, u32::from(LARGE)].map(Tray::new));
    assert_eq!(recover(FOURS, &mut gathered, &missing[..1]), Ok(()));
    assert_eq!(gathered, whole);
    let (of_rack, rack) = (&images[12 * 88..16 * 88], Rack::new(3));
    let mut out = [LARGE; 128];
    let refused = gather_rack(FOURS, 7, rack, &[], of_rack, &mut out);
    assert_eq!((refused, out), (Err(Refusal::Malformed), [LARGE; 128]));
    assert_eq!(
        gather_rack(FOURS, 7, rack, &missing[..1], of_rack, &mut out),
        Ok(())
    );
    assert_eq!(out[..32], [LARGE; 32]);
    assert_eq!(out[32..], whole[13 * 32..16 * 32]);
}

/// One number above 256 in each place of what a piece is lent: refused exactly where it is a share
/// symbol of the piece's groups, or one of a sound tray in their layers.
#[test]
fn a_piece_looks_at_its_own_groups() {
    let (lost, helpers) = (Tray::new(3), [0, 2].map(Rack::new));
    // Groups 0, 1, 2 and 3 of rack 1 are layers 0 and 2, 1 and 3, 4 and 6, 5 and 7.
    let groups = [0, 1, 0, 1, 2, 3, 2, 3];
    for group in 0..4 {
        let refused = |shares: &[u16], host: &[u16]| {
            let mut spare = [LARGE; 8];
            let done = repair(
                TWOS,
                lost,
                &helpers,
                shares,
                host,
                &mut spare,
                group as u64,
                1,
            );
            done.err()
        };
        for at in 0..8 {
            let mut shares = [0; 8];
            shares[at] = LARGE;
            let expected = (at % 4 == group).then_some(Refusal::Number);
            assert_eq!(refused(&shares, &[0; 16]), expected);
        }
        for at in 0..16 {
            let mut host = [0; 16];
            host[at] = LARGE;
            let seen = at < 8 && groups[at % 8] == group;
            assert_eq!(refused(&[0; 8], &host), seen.then_some(Refusal::Number));
        }
    }
}

/// It counts before the grounds of lists, counts, hosts and first groups, and not with none lost.
#[test]
fn a_number_above_256_before_later_grounds() {
    let mut spare = [0; 8];
    let mut piece = |lost: &[u32], helpers: &[u32], first| {
        let lost: Vec<Tray> = lost.iter().copied().map(Tray::new).collect();
        let helpers: Vec<Rack> = helpers.iter().copied().map(Rack::new).collect();
        let shares = vec![LARGE; 8 * lost.len()];
        let spare = &mut spare[..8 * lost.len()];
        repair_many(
            TWOS,
            &lost,
            &helpers,
            &shares,
            &[LARGE; 16],
            spare,
            first,
            9,
        )
    };
    assert_eq!(piece(&[2], &[2, 0], 0), Err(Refusal::Number));
    assert_eq!(piece(&[2], &[0, 1, 2], 0), Err(Refusal::Number));
    assert_eq!(piece(&[2], &[0, 1], 0), Err(Refusal::Number));
    assert_eq!(piece(&[2], &[0, 2], 5), Err(Refusal::FirstGroup));
    assert_eq!(piece(&[], &[0, 2], 0), Err(Refusal::LostCount));
    let (host, helper) = (Rack::new(0), Rack::new(1));
    let shared =
        |count, host, out: &mut [u16]| share_many(TWOS, count, host, helper, &[LARGE; 16], out);
    assert_eq!(shared(2, host, &mut [0; 8]), Err(Refusal::Number));
    assert_eq!(shared(1, helper, &mut [0; 4]), Err(Refusal::Number));
    assert_eq!(shared(0, host, &mut []), Err(Refusal::LostCount));
    let added = |count, symbol, held: u16, length: usize| {
        let mut share = vec![held; length];
        share_add_many(TWOS, count, host, Tray::new(2), &[symbol; 8], &mut share)
    };
    assert_eq!(added(1, LARGE, 0, 4), Err(Refusal::Number));
    assert_eq!(added(1, 0, LARGE, 4), Err(Refusal::Number));
    assert_eq!(added(2, 0, LARGE, 8), Err(Refusal::Number));
    assert_eq!(added(0, LARGE, 0, 0), Err(Refusal::LostCount));
    assert_eq!(added(1, 256, 256, 4), Ok(()));
}

/// A card's multipliers, the share symbols of its group, and the sound symbols of its layers.
#[test]
fn a_card_looks_at_its_own_group() {
    let (lost, helpers) = (Tray::new(3), [0, 2].map(Rack::new));
    // Group 1 of rack 1 is layers 1 and 3.
    let mut right = [0; 4];
    card(TWOS, lost, &helpers, 1, &mut right).expect("a card is printed");
    let refused = |card: &[u16], shares: &[u16], host: &[u16], helpers: &[Rack]| {
        card_repair(TWOS, lost, helpers, card, shares, host, &mut [LARGE; 8], 1).err()
    };
    assert_eq!(refused(&right, &[0; 8], &[0; 16], &helpers), None);
    for at in 0..4 {
        let mut above = right;
        above[at] = LARGE;
        let tested = card_test(TWOS, lost, &helpers, &above, 1);
        assert_eq!(tested, Err(Refusal::Number));
        let host_helps = [0, 1].map(Rack::new);
        for helpers in [helpers, host_helps] {
            let found = refused(&above, &[0; 8], &[0; 16], &helpers);
            assert_eq!(found, Some(Refusal::Number));
        }
    }
    for at in 0..8 {
        let mut shares = [0; 8];
        shares[at] = LARGE;
        let expected = (at % 4 == 1).then_some(Refusal::Number);
        assert_eq!(refused(&right, &shares, &[0; 16], &helpers), expected);
    }
    for at in 0..16 {
        let mut host = [0; 16];
        host[at] = LARGE;
        let expected = [1, 3].contains(&at).then_some(Refusal::Number);
        assert_eq!(refused(&right, &[0; 8], &host, &helpers), expected);
    }
}

#[test]
fn a_tray_fed_257_times_cancels() {
    let (host, tray) = (Rack::new(1), Tray::new(5));
    let symbols = [256, 1, 0, 7, 99, 200, 3, 5];
    let held = [1, 256, 128, 0];
    let mut share = held;
    for feeds in 1..=257 {
        share_add(TWOS, host, tray, &symbols, &mut share).expect("a tray is fed");
        assert_eq!(share == held, feeds == 257);
        if feeds == 2 {
            // Twice 256 + 0, 1 + 7, 99 + 3 and 200 + 5 more than at first.
            assert_eq!(share, [256, 15, 75, 153]);
        }
    }
}

#[test]
fn reads_and_walks_hand_on_what_they_do_not_look_at() {
    let store = [LARGE; 48];
    let read = |tray, end| {
        read_part(
            TWOS,
            &store,
            &[300; 8],
            Tray::new(1),
            1,
            Tray::new(tray),
            0..end,
        )
    };
    assert_eq!(read(0, 8), Ok(&[LARGE; 8][..]));
    assert_eq!(read(1, 2), Ok(&[300; 2][..]));
    assert_eq!(read(1, 3), Err(Refusal::NotRepaired));
    let mut codeword = [0; 48];
    codeword[4] = LARGE;
    let mut record = ScrubRecord::new(0, 0, 0);
    scrub_reset(TWOS, &mut record).expect("a walk begins");
    assert_eq!(
        scrub(TWOS, &codeword, &mut record, 4),
        Ok(Scrubbed::Unfinished)
    );
    assert_eq!(scrub(TWOS, &codeword, &mut record, 1), Err(Refusal::Number));
    assert_eq!(record, ScrubRecord::new(4, 0, 8));
    assert_eq!(
        scrub(TWOS, &codeword, &mut record, 0),
        Ok(Scrubbed::Unfinished)
    );
    record = ScrubRecord::new(5, 0, 8);
    assert_eq!(scrub(TWOS, &codeword, &mut record, 9), Ok(Scrubbed::Sound));
}

#[test]
fn images_of_edition_2() {
    let mut image = [0; 40];
    let written = |state: u8, symbol, image: &mut [u8]| {
        write_image(TWOS, Tray::new(5), state.into(), 7, &[symbol; 8], image)
    };
    let read = |image: &[u8]| {
        let mut symbols = [LARGE; 8];
        read_image(TWOS, 7, image, &mut symbols).map(|tray| (tray, symbols))
    };
    assert_eq!(written(LIVE, LARGE, &mut image), Err(Refusal::Number));
    assert_eq!(written(LIVE, 256, &mut image), Ok(()));
    assert_eq!(read(&image), Ok((Tray::new(5), [256; 8])));
    assert_eq!(gesarumbo::read_image(TWOS, 7, &image), Err(Refusal::Layout));
    let ones = Layout::new(3, 1, 1, 2);
    assert_eq!(
        gesarumbo::read_image(ones, 7, &image),
        Err(Refusal::Malformed)
    );
    for length in [7, 9] {
        let mut symbols = vec![0; length];
        assert_eq!(read_image(TWOS, 7, &[], &mut symbols), Err(Refusal::Length));
    }
    for state in [LIVE, DEMONSTRATION] {
        written(state, 256, &mut image).expect("an image is written");
        image[38] = 1; // the last symbol is 257
        assert_eq!(read(&image), Err(Refusal::Malformed));
    }
    image[38] = 0;
    assert_eq!(read(&image), Err(Refusal::Demonstration));
    image[2] = 1;
    assert_eq!(read(&image), Err(Refusal::Malformed));
}
