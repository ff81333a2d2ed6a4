// The tests of one field, included for each: the module says what BAD, GOOD, LESS and WARY are, U, K
// and N of GOOD, what a symbol is and how many bytes it has in an image.

/// R of GOOD, and the lengths of its buffers.
const R: u32 = N - K;
const DATA: usize = K as usize * 16;
const CODEWORD: usize = N as usize * 16;
const RACK: usize = U as usize * 16;
const IMAGE: usize = 24 + BYTES * 16;

/// So many symbols, all zero.
fn zeros(length: usize) -> Vec<Symbol> {
    vec![0; length]
}

#[test]
fn storing() {
    for (ground, layout, data, length) in [
        (Refusal::Layout, BAD, DATA - 1, CODEWORD - 1),
        (Refusal::Length, GOOD, DATA - 1, CODEWORD),
        (Refusal::Length, GOOD, DATA, CODEWORD - 1),
    ] {
        refused(ground, length, |out| store(layout, &zeros(data), out));
    }
}

#[test]
fn testing() {
    let length = CODEWORD + 1;
    refused(Refusal::Layout, length, |codeword| test(BAD, codeword));
    refused(Refusal::Length, length, |codeword| test(GOOD, codeword));
}

/// All that recovering looks at, up to ground 5: the calls over erased trays have these alike.
fn erased_trays() -> Vec<(Refusal, Layout, usize, Vec<u32>)> {
    let all_wrong = vec![N, 1, 1, 2, 3, 4, 5];
    vec![
        (Refusal::Layout, BAD, CODEWORD - 1, all_wrong.clone()),
        (Refusal::Length, GOOD, CODEWORD - 1, all_wrong.clone()),
        (Refusal::Number, GOOD, CODEWORD, all_wrong),
        (Refusal::Order, GOOD, CODEWORD, vec![0, 1, 1, 2, 3, 4, 5]),
        (Refusal::Count, GOOD, CODEWORD, (0..=R).collect()),
    ]
}

#[test]
fn recovering() {
    for (ground, layout, length, erased) in erased_trays() {
        refused(ground, length, |c| recover(layout, c, &trays(&erased)));
    }
    for erased in [&[0, 1, 2][..], &[]] {
        refused(Refusal::Survivors, CODEWORD, |c| {
            recover(GOOD, c, &trays(erased))
        });
    }
}

/// A codeword of GOOD.
fn stored() -> Vec<Symbol> {
    let data: Vec<Symbol> = (0..DATA).map(|at| (at * 13 % 251) as Symbol).collect();
    let mut codeword = zeros(CODEWORD);
    store(GOOD, &data, &mut codeword).expect("data are stored");
    codeword
}

/// A symbol that is not this one.
fn another(symbol: Symbol) -> Symbol {
    Symbol::from(symbol == 0)
}

#[test]
fn recovering_though_one_is_wrong() {
    for (ground, layout, length, erased) in erased_trays() {
        refused(ground, length, |c| {
            recover_correcting(layout, c, &trays(&erased))
        });
    }
    let whole = stored();
    for erased in 0..=R {
        let (erased, checks) = (trays(&(0..erased).collect::<Vec<_>>()), R - erased);
        let mut wrong = whole.clone();
        wrong[..erased.len() * 16].fill(7);
        let mut codeword = wrong.clone();
        let none = Recovered { tray: None, checks };
        assert_eq!(recover_correcting(GOOD, &mut codeword, &erased), Ok(none));
        assert_eq!(codeword, whole);
        // The last tray is wrong in two layers, and then the one before it in another.
        for at in [CODEWORD - 1, CODEWORD - 9] {
            wrong[at] = another(wrong[at]);
        }
        let named = Recovered {
            tray: Some(Tray::new(N - 1)),
            checks,
        };
        codeword = wrong.clone();
        let recovered = recover_correcting(GOOD, &mut codeword, &erased);
        match checks {
            0 => assert_eq!(recovered, Ok(none)),
            1 => assert_eq!((recovered, &codeword), (Err(Refusal::Survivors), &wrong)),
            _ => assert_eq!((recovered, &codeword), (Ok(named), &whole)),
        }
        wrong[CODEWORD - 20] = another(wrong[CODEWORD - 20]);
        codeword = wrong.clone();
        let recovered = recover_correcting(GOOD, &mut codeword, &erased);
        match checks {
            0 => assert_eq!(recovered, Ok(none)),
            _ => assert_eq!((recovered, &codeword), (Err(Refusal::Survivors), &wrong)),
        }
    }
}

#[test]
fn testing_with_trays_missing() {
    for (ground, layout, length, erased) in erased_trays() {
        refused(ground, length, |c| test_kept(layout, c, &trays(&erased)));
    }
    let whole = stored();
    for erased in 0..=R {
        let (erased, checks) = (trays(&(0..erased).collect::<Vec<_>>()), R - erased);
        let mut kept = whole.clone();
        kept[..erased.len() * 16].fill(7);
        let sound = Ok(Kept::Sound { checks });
        assert_eq!(test_kept(GOOD, &kept, &erased), sound);
        for layer in [11, 4] {
            let at = CODEWORD - 16 + layer as usize;
            kept[at] = another(kept[at]);
            let layer = Layer::new(layer);
            let bad = match checks {
                0 => sound,
                _ => Ok(Kept::Bad { layer, checks }),
            };
            assert_eq!(test_kept(GOOD, &kept, &erased), bad);
        }
    }
}

/// The images of the trays of a codeword of GOOD, all of volume 7.
fn images(codeword: &[Symbol]) -> Vec<u8> {
    let mut images = vec![0; N as usize * IMAGE];
    for (tray, image) in (0..).map(Tray::new).zip(images.chunks_mut(IMAGE)) {
        let symbols = &codeword[tray.number() as usize * 16..][..16];
        let written = write_image(GOOD, tray, LIVE.into(), 7, symbols, image);
        assert_eq!(written, Ok(()));
    }
    images
}

/// What is no live image of place 2, each with its ground and the state of the place: as malformed,
/// demonstration, of another volume, of another layout and of another place.
fn foreign() -> Vec<(Refusal, u8, Vec<u8>)> {
    let mut reset = image_of(GOOD, DEMONSTRATION, 7);
    reset[12..16].fill(0); // a reset tray comes up with volume 0
    let mut elsewhere = image_of(GOOD, LIVE, 7);
    elsewhere[8] = 3;
    let demonstration = image_of(GOOD, DEMONSTRATION, 8);
    vec![
        (Refusal::Malformed, ABSENT, vec![0; IMAGE]),
        (Refusal::Malformed, ABSENT, reset),
        (Refusal::Demonstration, DEMONSTRATION, demonstration),
        (Refusal::Other, ABSENT, image_of(GOOD, LIVE, 8)),
        (Refusal::Other, ABSENT, image_of(LESS, LIVE, 7)),
        (Refusal::Other, ABSENT, elsewhere),
    ]
}

#[test]
fn telling_states() {
    let (all, trays) = (N as usize * IMAGE, N as usize);
    for (ground, layout, images, length) in [
        (Refusal::Layout, BAD, all - 1, trays - 1),
        (Refusal::Length, GOOD, all - 1, trays),
        (Refusal::Length, GOOD, all, trays + 1),
    ] {
        refused(ground, length, |out| {
            states(layout, 7, &vec![0; images], out)
        });
    }
    let good = images(&stored());
    for (_, state, image) in foreign() {
        let mut images = good.clone();
        images[2 * IMAGE..3 * IMAGE].copy_from_slice(&image);
        let mut found = vec![9; trays];
        assert_eq!(states(GOOD, 7, &images, &mut found), Ok(()));
        let mut due = vec![LIVE; trays];
        due[2] = state;
        assert_eq!(found, due);
    }
}

#[test]
fn gathering() {
    let (all, length) = (N as usize * IMAGE, N as usize);
    for (ground, layout, images, codeword, list) in [
        (Refusal::Layout, BAD, all - 1, CODEWORD - 1, length - 1),
        (Refusal::Length, GOOD, all - 1, CODEWORD, length),
        (Refusal::Length, GOOD, all, CODEWORD - 1, length),
        (Refusal::Length, GOOD, all, CODEWORD, length + 1),
        (Refusal::Length, GOOD, all, CODEWORD, 0),
    ] {
        let mut missing = trays(&vec![77; list]);
        refused(ground, codeword, |out| {
            gather(layout, 7, &vec![0; images], out, &mut missing)
        });
        assert_eq!(missing, trays(&vec![77; list]));
    }
    let whole = stored();
    for (_, _, image) in foreign() {
        let mut images = images(&whole);
        images[2 * IMAGE..3 * IMAGE].copy_from_slice(&image);
        let (mut codeword, mut missing) = (vec![9; CODEWORD], trays(&vec![77; length]));
        let gathered = gather(GOOD, 7, &images, &mut codeword, &mut missing);
        assert_eq!(gathered, Ok(1));
        let mut due = trays(&vec![77; length]);
        due[0] = Tray::new(2);
        assert_eq!(missing, due);
        assert_eq!(codeword[2 * 16..3 * 16], [0; 16]);
        assert_eq!(recover(GOOD, &mut codeword, &missing[..1]), Ok(()));
        assert_eq!(codeword, whole);
    }
    let (mut codeword, mut missing) = (vec![9; CODEWORD], trays(&vec![77; length]));
    let none = gather(GOOD, 8, &images(&whole), &mut codeword, &mut missing);
    assert_eq!((none, codeword), (Ok(length), zeros(CODEWORD)));
    assert_eq!(missing, trays(&(0..N).collect::<Vec<_>>()));
}

#[test]
fn gathering_a_rack() {
    let of_rack = U as usize * IMAGE;
    for (ground, layout, rack, lost, images, length) in [
        (Refusal::Layout, BAD, 4, &[U, 1, 1][..], of_rack - 1, RACK - 1),
        (Refusal::Length, GOOD, 4, &[U, 1, 1], of_rack - 1, RACK),
        (Refusal::Length, GOOD, 4, &[U, 1, 1], of_rack, RACK - 1),
        (Refusal::Number, GOOD, 4, &[1, 1], of_rack, RACK),
        (Refusal::Number, GOOD, 0, &[U, 1, 1], of_rack, RACK),
        (Refusal::Number, GOOD, 0, &[N, 1, 1], of_rack, RACK),
        (Refusal::Order, GOOD, 0, &[1, 1], of_rack, RACK),
        (Refusal::Order, GOOD, 0, &[1, 0], of_rack, RACK),
        (Refusal::Malformed, GOOD, 0, &[1], of_rack, RACK),
    ] {
        let (rack, lost) = (Rack::new(rack), trays(lost));
        refused(ground, length, |out| {
            gather_rack(layout, 7, rack, &lost, &vec![0; images], out)
        });
    }
    let whole = stored();
    let good = images(&whole)[..of_rack].to_vec();
    for (ground, _, image) in foreign() {
        let mut images = good.clone();
        images[2 * IMAGE..3 * IMAGE].copy_from_slice(&image);
        refused(ground, RACK, |out| {
            gather_rack(GOOD, 7, Rack::new(0), &[], &images, out)
        });
        let mut out = vec![9; RACK];
        let lost = [Tray::new(2)];
        assert_eq!(gather_rack(GOOD, 7, Rack::new(0), &lost, &images, &mut out), Ok(()));
        assert_eq!(out[..2 * 16], whole[..2 * 16]);
        assert_eq!(out[2 * 16..3 * 16], [9; 16]);
        assert_eq!(out[3 * 16..], whole[3 * 16..RACK]);
        // The first ground over all images: a malformed one beside it comes first.
        images[..IMAGE].fill(0);
        refused(Refusal::Malformed, RACK, |out| {
            gather_rack(GOOD, 7, Rack::new(0), &[], &images, out)
        });
    }
}

#[test]
fn sharing() {
    for (ground, layout, host, helper, rack, length) in [
        (Refusal::Layout, BAD, 4, 4, RACK - 1, 7),
        (Refusal::Length, GOOD, 4, 4, RACK - 1, 8),
        (Refusal::Length, GOOD, 4, 4, RACK, 7),
        (Refusal::Number, GOOD, 4, 4, RACK, 8),
        (Refusal::Number, GOOD, 0, 4, RACK, 8),
        (Refusal::Host, GOOD, 3, 3, RACK, 8),
    ] {
        let (host, helper) = (Rack::new(host), Rack::new(helper));
        refused(ground, length, |out| {
            share(layout, host, helper, &zeros(rack), out)
        });
    }
}

#[test]
fn sharing_tray_by_tray() {
    for (ground, layout, host, tray, symbols, length) in [
        (Refusal::Layout, BAD, 4, N, 15, 7),
        (Refusal::Length, GOOD, 4, N, 15, 8),
        (Refusal::Length, GOOD, 4, N, 16, 7),
        (Refusal::Number, GOOD, 4, N, 16, 8),
        (Refusal::Number, GOOD, 4, N - 1, 16, 8),
        (Refusal::Number, GOOD, 3, N, 16, 8),
        (Refusal::Host, GOOD, 3, N - 1, 16, 8),
    ] {
        let (host, tray) = (Rack::new(host), Tray::new(tray));
        refused(ground, length, |share| {
            share_add(layout, host, tray, &zeros(symbols), share)
        });
    }
}

#[test]
fn sharing_for_several() {
    for (ground, layout, count, host, helper, rack, length) in [
        (Refusal::Layout, BAD, 3, 4, 4, RACK - 1, 23),
        (Refusal::Length, LESS, 3, 4, 4, RACK - 1, 24),
        (Refusal::Length, LESS, 3, 4, 4, RACK, 23),
        (Refusal::Length, LESS, 1 << 29, 4, 4, RACK, 0), // 2^32 symbols
        (Refusal::Number, LESS, 3, 4, 4, RACK, 24),
        (Refusal::Number, LESS, 3, 0, 4, RACK, 24),
        (Refusal::LostCount, LESS, 3, 3, 3, RACK, 24),
        (Refusal::LostCount, LESS, 0, 3, 3, RACK, 0),
        (Refusal::LostCount, GOOD, 2, 3, 3, RACK, 16),
        (Refusal::Host, LESS, 2, 3, 3, RACK, 16),
    ] {
        let (host, helper) = (Rack::new(host), Rack::new(helper));
        refused(ground, length, |out| {
            share_many(layout, count, host, helper, &zeros(rack), out)
        });
    }
}

#[test]
fn sharing_tray_by_tray_for_several() {
    for (ground, layout, count, host, tray, symbols, length) in [
        (Refusal::Layout, BAD, 3, 4, N, 15, 23),
        (Refusal::Length, LESS, 3, 4, N, 15, 24),
        (Refusal::Length, LESS, 3, 4, N, 16, 23),
        (Refusal::Length, LESS, 1 << 29, 4, N, 16, 0),
        (Refusal::Number, LESS, 3, 4, N - 1, 16, 24),
        (Refusal::Number, LESS, 3, 3, N, 16, 24),
        (Refusal::LostCount, LESS, 3, 3, N - 1, 16, 24),
        (Refusal::LostCount, LESS, 0, 3, N - 1, 16, 0),
        (Refusal::LostCount, GOOD, 2, 3, N - 1, 16, 16),
        (Refusal::Host, LESS, 2, 3, N - 1, 16, 16),
    ] {
        let (host, tray) = (Rack::new(host), Tray::new(tray));
        refused(ground, length, |share| {
            share_add_many(layout, count, host, tray, &zeros(symbols), share)
        });
    }
}

#[test]
fn repairing() {
    for (ground, layout, lost, helpers, shares, host, length) in [
        (Refusal::Layout, BAD, N, &[1, 0, 4, 3][..], 25, RACK + 1, 15),
        (Refusal::Length, GOOD, N, &[1, 0, 4, 3], 25, RACK, 16),
        (Refusal::Length, GOOD, N, &[1, 0, 4, 3], 24, RACK + 1, 16),
        (Refusal::Length, GOOD, N, &[1, 0, 4, 3], 24, RACK, 15),
        (Refusal::Number, GOOD, N, &[1, 0, 2, 3], 24, RACK, 16),
        (Refusal::Number, GOOD, N - 1, &[1, 0, 4, 3], 24, RACK, 16),
        (Refusal::Order, GOOD, N - 1, &[1, 0, 2, 3], 24, RACK, 16),
        (Refusal::Count, GOOD, N - 1, &[0, 1, 2, 3], 24, RACK, 16),
        (Refusal::Host, GOOD, N - 1, &[0, 1, 3], 24, RACK, 16),
        (Refusal::FirstGroup, GOOD, N - 1, &[0, 1, 2], 24, RACK, 16),
    ] {
        let (lost, helpers) = (Tray::new(lost), racks(helpers));
        let (shares, host) = (zeros(shares), zeros(host));
        refused(ground, length, |spare| {
            repair(layout, lost, &helpers, &shares, &host, spare, 9, 0)
        });
    }
}

#[test]
fn repairing_several() {
    let outside = &[1, 0, 4, 3][..];
    let [falling, four, own] = [&[1, 0, 2, 3][..], &[0, 1, 2, 3], &[0, 1, 3]];
    // The last three trays of the last rack, and trays that are not of one rack.
    let [a, b, c] = [N - 3, N - 2, N - 1];
    let [none, two_racks] = [&[N, a, c][..], &[c, N - U - 1, b]];
    for (ground, layout, lost, helpers, longer) in [
        (Refusal::Layout, BAD, none, outside, [1, 1, 1]),
        (Refusal::Length, LESS, none, outside, [1, 0, 0]),
        (Refusal::Length, LESS, none, outside, [0, 1, 0]),
        (Refusal::Length, LESS, none, outside, [0, 0, 1]),
        (Refusal::Number, LESS, none, falling, [0; 3]),
        (Refusal::Number, LESS, two_racks, falling, [0; 3]),
        (Refusal::Number, LESS, &[b, a, c], outside, [0; 3]),
        (Refusal::Order, LESS, &[b, a, c], four, [0; 3]),
        (Refusal::Order, LESS, &[a, c, c], four, [0; 3]),
        (Refusal::Order, LESS, &[a, b, c], falling, [0; 3]),
        (Refusal::Count, LESS, &[a, b, c], four, [0; 3]),
        (Refusal::Count, LESS, &[], four, [0; 3]),
        (Refusal::LostCount, LESS, &[a, b, c], own, [0; 3]),
        (Refusal::LostCount, LESS, &[], own, [0; 3]),
        (Refusal::LostCount, GOOD, &[a, c], own, [0; 3]),
        (Refusal::Host, LESS, &[a, c], own, [0; 3]),
        (Refusal::FirstGroup, LESS, &[a, c], &[0, 1, 2], [0; 3]),
    ] {
        let (lost, helpers) = (trays(lost), racks(helpers));
        let [shares, host, spare] = [24 * lost.len(), RACK, 16 * lost.len()];
        let (shares, host) = (zeros(shares + longer[0]), zeros(host + longer[1]));
        refused(ground, spare + longer[2], |spare| {
            repair_many(layout, &lost, &helpers, &shares, &host, spare, 9, 0)
        });
    }
}

#[test]
fn repairing_with_a_wrong_share() {
    let (outside, n) = (&[1, 0, 5, 3][..], 5 * U);
    let [falling, five, own] = [&[1, 0, 2, 3][..], &[0, 1, 2, 3, 4], &[0, 1, 2, 4]];
    for (ground, layout, lost, helpers, longer) in [
        (Refusal::Layout, BAD, n, outside, [1, 1, 1]),
        (Refusal::Layout, GOOD, n, outside, [1, 1, 1]),
        (Refusal::Length, WARY, n, outside, [1, 0, 0]),
        (Refusal::Length, WARY, n, outside, [0, 1, 0]),
        (Refusal::Length, WARY, n, outside, [0, 0, 1]),
        (Refusal::Number, WARY, n, falling, [0; 3]),
        (Refusal::Number, WARY, n - 1, outside, [0; 3]),
        (Refusal::Order, WARY, n - 1, falling, [0; 3]),
        (Refusal::Count, WARY, n - 1, five, [0; 3]),
        (Refusal::Host, WARY, n - 1, own, [0; 3]),
        (Refusal::Shares, WARY, n - 1, &[0, 1, 2, 3], [0; 3]),
    ] {
        let (lost, helpers) = (Tray::new(lost), racks(helpers));
        let mut shares = zeros(64 + longer[0]);
        shares[..2].copy_from_slice(&[0, 9]);
        shares[16..18].copy_from_slice(&[7, 0]);
        let host = zeros(2 * RACK + longer[1]);
        refused(ground, 32 + longer[2], |spare| {
            repair_correcting(layout, lost, &helpers, &shares, &host, spare)
        });
    }
}

/// One share that is wrong in one symbol, in several or in none.
#[test]
fn a_wrong_share_is_named() {
    let data: Vec<Symbol> = (0..4 * 32).map(|at| (at * 7 % 251) as Symbol).collect();
    let mut codeword = zeros(5 * 2 * RACK);
    store(WARY, &data, &mut codeword).expect("data are stored");
    let lost = Tray::new(U); // the first of rack 1
    let helpers = racks(&[0, 2, 3, 4]);
    let mut shares = zeros(64);
    for (helper, sent) in helpers.iter().zip(shares.chunks_mut(16)) {
        let rack = &codeword[helper.number() as usize * 2 * RACK..][..2 * RACK];
        share(WARY, Rack::new(1), *helper, rack, sent).expect("a share is worked out");
    }
    let repaired = |shares: &[Symbol]| {
        let mut spare = vec![99; 32];
        let host = &codeword[2 * RACK..4 * RACK];
        repair_correcting(WARY, lost, &helpers, shares, host, &mut spare).map(|done| {
            assert_eq!(spare, codeword[2 * RACK..][..32]);
            assert_eq!(done.crossed, 64);
            done.rack.map(Rack::number)
        })
    };
    let change = |symbol: &mut Symbol| *symbol = Symbol::from(*symbol == 0);
    assert_eq!(repaired(&shares), Ok(None));
    for (at, rack) in [0, 2, 3, 4].into_iter().enumerate() {
        for wrong in [0..1, 15..16, 4..9, 0..16] {
            let mut stale = shares.clone();
            stale[16 * at..][wrong].iter_mut().for_each(change);
            assert_eq!(repaired(&stale), Ok(Some(rack)));
        }
    }
    for at in 1..4 {
        // Two helpers, each wrong in a group of its own: either group alone could be made right.
        let mut stale = shares.clone();
        change(&mut stale[16 * at - 16]);
        change(&mut stale[16 * at + 15]);
        assert_eq!(repaired(&stale), Err(Refusal::Shares));
    }
}

#[test]
fn cards() {
    let outside = &[1, 0, 4, 3][..];
    let [falling, four, own] = [&[1, 0, 2, 3][..], &[0, 1, 2, 3], &[0, 1, 3]];
    for (ground, layout, lost, helpers, length, group) in [
        (Refusal::Layout, BAD, N, outside, 7, 8),
        (Refusal::Layout, WARY, N, outside, 7, 8),
        (Refusal::Length, GOOD, N, outside, 7, 8),
        (Refusal::Length, GOOD, N, outside, 5, 8),
        (Refusal::Number, GOOD, N, falling, 6, 7),
        (Refusal::Number, GOOD, N - 1, outside, 6, 7),
        (Refusal::Number, GOOD, N - 1, falling, 6, 8),
        (Refusal::Number, GOOD, N - 1, falling, 6, 1 << 32),
        (Refusal::Order, GOOD, N - 1, falling, 6, 7),
        (Refusal::Count, GOOD, N - 1, four, 6, 7),
        (Refusal::Host, GOOD, N - 1, own, 6, 7),
    ] {
        let (lost, helpers) = (Tray::new(lost), racks(helpers));
        refused(ground, length, |out| {
            card(layout, lost, &helpers, group, out)
        });
        refused(ground, length, |c| {
            card_test(layout, lost, &helpers, c, group)
        });
        let (lent, shares, host) = (zeros(length), zeros(24), zeros(RACK));
        refused(ground, 16, |spare| {
            card_repair(layout, lost, &helpers, &lent, &shares, &host, spare, group)
        });
    }
    let (lost, helpers) = (Tray::new(0), racks(&[0, 2, 3]));
    for longer in [[1, 0, 0], [0, 1, 0], [0, 0, 1]] {
        let [shares, host, spare] = longer;
        let (shares, host) = (zeros(24 + shares), zeros(RACK + host));
        refused(Refusal::Length, 16 + spare, |spare| {
            card_repair(GOOD, lost, &helpers, &zeros(6), &shares, &host, spare, 8)
        });
    }
}

/// A tray from the right cards of all groups, and every one of their multipliers changed.
#[test]
fn right_cards() {
    let data: Vec<Symbol> = (0..DATA).map(|at| (at * 11 % 251) as Symbol).collect();
    let mut codeword = zeros(CODEWORD);
    store(GOOD, &data, &mut codeword).expect("data are stored");
    let (lost, helpers) = (Tray::new(U + 1), racks(&[0, 2, 3]));
    let mut shares = zeros(24);
    for (helper, sent) in helpers.iter().zip(shares.chunks_mut(8)) {
        let rack = &codeword[helper.number() as usize * RACK..][..RACK];
        share(GOOD, Rack::new(1), *helper, rack, sent).expect("a share is worked out");
    }
    let host = &codeword[RACK..2 * RACK];
    let mut spare = vec![99; 16];
    for group in 0..8 {
        let mut printed = vec![99; 6];
        assert_eq!(card(GOOD, lost, &helpers, group, &mut printed), Ok(()));
        assert_eq!(card_test(GOOD, lost, &helpers, &printed, group), Ok(()));
        for at in 0..6 {
            let mut other = printed.clone();
            other[at] = Symbol::from(other[at] == 0);
            let tested = card_test(GOOD, lost, &helpers, &other, group);
            assert_eq!(tested, Err(Refusal::Card));
            refused(Refusal::Card, 16, |spare| {
                card_repair(GOOD, lost, &helpers, &other, &shares, host, spare, group)
            });
        }
        let spare = &mut spare;
        let done = card_repair(GOOD, lost, &helpers, &printed, &shares, host, spare, group);
        let remaining = 3 * (7 - group);
        assert_eq!(
            done,
            Ok(Repaired {
                groups: 1,
                crossed: 3,
                remaining
            })
        );
    }
    assert_eq!(spare, codeword[(U as usize + 1) * 16..][..16]);
}

/// Calls that are for E = 0 only, given what is right for E = 1 but for that.
#[test]
fn not_for_wrong_shares() {
    let (tray, rack, groups) = (Tray::new(0), Rack::new(0), 16);
    let (helpers, shares, host) = (racks(&[1, 2, 3, 4]), zeros(64), zeros(2 * RACK));
    assert_eq!(measure(WARY).map(|measured| measured.layers), Ok(32));
    refused(Refusal::Layout, 32, |spare| {
        repair(WARY, tray, &helpers, &shares, &host, spare, 0, 1)
    });
    refused(Refusal::Layout, 32, |spare| {
        repair_many(WARY, &[tray], &helpers, &shares, &host, spare, 0, 1)
    });
    refused(Refusal::Layout, groups, |share| {
        share_many(WARY, 1, Rack::new(1), rack, &host, share)
    });
    refused(Refusal::Layout, groups, |share| {
        share_add_many(WARY, 1, Rack::new(1), tray, &zeros(32), share)
    });
    refused(Refusal::Layout, 8, |c| card(WARY, tray, &helpers, 0, c));
    refused(Refusal::Layout, 8, |c| {
        card_test(WARY, tray, &helpers, c, 0)
    });
    refused(Refusal::Layout, 32, |spare| {
        card_repair(WARY, tray, &helpers, &zeros(8), &shares, &host, spare, 0)
    });
    let (codeword, spare) = (zeros(10 * RACK), zeros(32));
    let read = read_part(WARY, &codeword, &spare, tray, 0, tray, 0..0);
    assert_eq!(read, Err(Refusal::Layout));
    for errors in [2, 257, u32::MAX] {
        assert_eq!(measure(Layout { errors, ..WARY }), Err(Refusal::Layout));
    }
}

#[test]
fn reading_while_repairing() {
    let codeword: Vec<Symbol> = (0..CODEWORD).map(|at| (at % 251) as Symbol).collect();
    let spare: Vec<Symbol> = (0..16).rev().collect();
    let (short, whole) = (CODEWORD - 1, CODEWORD);
    let beyond = (u32::MAX, u32::MAX);
    // Tray 5 stands in rack 1: layers 0, 1, 2, 3 and 4 are in groups 0, 1, 0, 1 and 2.
    for (answer, layout, length, lost, groups, tray, layers) in [
        (Err(Refusal::Layout), BAD, short, N, 9, N, (5, 4)),
        (Err(Refusal::Length), GOOD, short, N, 9, N, (5, 4)),
        (Err(Refusal::Number), GOOD, whole, N, 1, 5, (0, 16)),
        (Err(Refusal::Number), GOOD, whole, 5, 1, N, (0, 16)),
        (Err(Refusal::Number), GOOD, whole, 5, 9, 5, (0, 16)),
        (Err(Refusal::Number), GOOD, whole, 5, 1, 5, (0, 17)),
        (Err(Refusal::Number), GOOD, whole, 5, 1, 5, (1, 0)),
        (Err(Refusal::Number), GOOD, whole, 5, 1, 5, beyond),
        (Err(Refusal::Number), GOOD, whole, 5, 1 << 32, 4, (0, 1)),
        (Err(Refusal::NotRepaired), GOOD, whole, 5, 1, 5, (0, 2)),
        (Err(Refusal::NotRepaired), GOOD, whole, 5, 2, 5, (0, 5)),
        (Ok(&spare[..4]), GOOD, whole, 5, 2, 5, (0, 4)),
        (Ok(&spare[2..3]), GOOD, whole, 5, 1, 5, (2, 3)),
        (Ok(&spare[..]), GOOD, whole, 5, 8, 5, (0, 16)),
        (Ok(&[][..]), GOOD, whole, 5, 0, 5, (16, 16)),
        (Ok(&codeword[66..80]), GOOD, whole, 5, 0, 4, (2, 16)),
    ] {
        let (lost, tray) = (Tray::new(lost), Tray::new(tray));
        let layers = layers.0..layers.1;
        let store = &codeword[..length];
        let read = read_part(layout, store, &spare, lost, groups, tray, layers);
        assert_eq!(read, answer);
    }
}

#[test]
fn writing_an_image() {
    for (ground, layout, tray, state, symbols, length) in [
        (Refusal::Layout, BAD, N, 3, 15, IMAGE - 1),
        (Refusal::Length, GOOD, N, 3, 15, IMAGE),
        (Refusal::Length, GOOD, N, 3, 16, IMAGE + 1),
        (Refusal::Number, GOOD, N, u32::from(LIVE), 16, IMAGE),
        (Refusal::Number, GOOD, N - 1, u32::from(ABSENT), 16, IMAGE),
        (
            Refusal::Number,
            GOOD,
            N - 1,
            256 + u32::from(LIVE),
            16,
            IMAGE,
        ),
    ] {
        let (tray, symbols) = (Tray::new(tray), zeros(symbols));
        refused(ground, length, |image| {
            write_image(layout, tray, state, 7, &symbols, image)
        });
    }
}

/// An image of tray 2 with 16 symbols.
fn image_of(layout: Layout, state: u8, volume: u32) -> Vec<u8> {
    let mut image = vec![0; IMAGE];
    let (tray, symbols) = (Tray::new(2), [0xC3; 16]);
    let written = write_image(layout, tray, state.into(), volume, &symbols, &mut image);
    assert_eq!(written, Ok(()));
    image
}

#[test]
fn reading_an_image() {
    let live = image_of(GOOD, LIVE, 7);
    let demonstration = image_of(GOOD, DEMONSTRATION, 8);
    let other = image_of(LESS, LIVE, 7);
    let mut with_errors = live.clone();
    with_errors[9] = 1; // the layout with E = 1 is not admissible
    for (ground, layout, volume, image) in [
        (Refusal::Malformed, GOOD, 7, &with_errors[..]),
        (Refusal::Layout, BAD, 8, &live[1..]),
        (Refusal::Malformed, GOOD, 8, &live[..IMAGE - 1]),
        (Refusal::Malformed, GOOD, 7, &demonstration[1..]),
        (Refusal::Demonstration, GOOD, 7, &demonstration),
        (Refusal::Other, GOOD, 8, &live),
        (Refusal::Other, GOOD, 7, &other),
    ] {
        assert_eq!(read_tray(layout, volume, image), Err(ground));
    }
    let read = read_tray(GOOD, 7, &live);
    assert_eq!(read, Ok((Tray::new(2), vec![0xC3; 16])));
}

#[test]
fn the_margin() {
    let trays = N as usize;
    assert_eq!(margin(BAD, &vec![3; trays - 1]), Err(Refusal::Layout));
    assert_eq!(margin(GOOD, &vec![3; trays - 1]), Err(Refusal::Length));
    assert_eq!(margin(GOOD, &vec![3; trays]), Err(Refusal::Number));
    assert_eq!(margin(GOOD, &vec![ABSENT; trays]), Ok(-(K as i32)));
}

#[test]
fn scrubbing() {
    for (ground, layout, length, record) in [
        (Refusal::Layout, BAD, CODEWORD - 1, [17, 18, 19]),
        (Refusal::Length, GOOD, CODEWORD - 1, [17, 18, 19]),
        (Refusal::Number, GOOD, CODEWORD, [17, 0, 16]), // next above L
        (Refusal::Number, GOOD, CODEWORD, [5, 6, 4]),   // count above next
        (Refusal::Number, GOOD, CODEWORD, [5, 0, 4]),   // none bad, first not L
        (Refusal::Number, GOOD, CODEWORD, [5, 1, 5]),   // some bad, first not below next
        (Refusal::Number, GOOD, CODEWORD, [16, 1, 16]),
    ] {
        let codeword = zeros(length);
        record_left(ground, record, |r| scrub(layout, &codeword, r, 1));
    }
    record_left(Refusal::Layout, [17, 18, 19], |r| scrub_reset(BAD, r));
}

/// A record that no walk can have, but that no ground refuses.
#[test]
fn two_bad_layers_of_one() {
    let mut record = ScrubRecord::new(2, 2, 1);
    let scrubbed = scrub(GOOD, &zeros(CODEWORD), &mut record, 14);
    assert_eq!(scrubbed, Ok(Scrubbed::Bad));
    assert_eq!(record, ScrubRecord::new(16, 2, 1));
}

#[test]
fn nothing_lent_is_a_wrong_length() {
    let (rack, tray) = (Rack::new(0), Tray::new(0));
    let length = Refusal::Length;
    let nothing: &[Symbol] = &[];
    refused(length, 0, |out| store(GOOD, nothing, out));
    refused(length, 0, |codeword| test(GOOD, codeword));
    refused(length, 0, |codeword| recover(GOOD, codeword, &[]));
    refused(length, 0, |out| share(GOOD, rack, rack, nothing, out));
    refused(length, 0, |out| {
        share_many(GOOD, 1, rack, rack, nothing, out)
    });
    refused(length, 0, |out| {
        share_add_many(GOOD, 1, rack, tray, nothing, out)
    });
    refused(length, 0, |s| {
        repair(GOOD, tray, &[], nothing, nothing, s, 0, 0)
    });
    refused(length, 0, |s| {
        repair_many(GOOD, &[], &[], nothing, nothing, s, 0, 0)
    });
    refused(length, 0, |s| {
        repair_correcting(WARY, tray, &[], nothing, nothing, s)
    });
    refused(length, 0, |c| card(GOOD, tray, &[], 0, c));
    refused(length, 0, |c| card_test(GOOD, tray, &[], c, 0));
    refused(length, 0, |s| {
        card_repair(GOOD, tray, &[], nothing, nothing, nothing, s, 0)
    });
    let read = read_part(GOOD, nothing, nothing, tray, 0, tray, 0..0);
    assert_eq!(read, Err(length));
    refused(length, 0, |i| write_image(GOOD, tray, 1, 7, nothing, i));
    assert_eq!(read_tray(GOOD, 7, &[]), Err(Refusal::Malformed));
    assert_eq!(margin(GOOD, &[]), Err(length));
    refused(length, 0, |codeword| recover_correcting(GOOD, codeword, &[]));
    refused(length, 0, |codeword| test_kept(GOOD, codeword, &[]));
    refused(length, 0, |out| states(GOOD, 7, &[], out));
    refused(length, 0, |out| gather(GOOD, 7, &[], out, &mut []));
    refused(length, 0, |out| gather_rack(GOOD, 7, rack, &[], &[], out));
    record_left(length, [0, 0, 16], |r| scrub(GOOD, nothing, r, 1));
}
