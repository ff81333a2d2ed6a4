//! The grounds of the box's calls.

use super::{racks, refused, trays};
use gesarumbo::{sixteen, Rack, Refusal, Tray};

/// The word of the data 1 to 7, and their share.
const WORD: [u8; 16] = [1, 0, 11, 9, 5, 1, 15, 8, 14, 9, 8, 12, 6, 14, 7, 12];
const SHARE: u8 = 3;

#[test]
fn storing() {
    for (ground, data, length) in [
        (Refusal::Length, &[16; 6][..], 16),
        (Refusal::Length, &[16; 7], 15),
        (Refusal::Number, &[0, 0, 0, 0, 0, 0, 16], 16),
    ] {
        refused(ground, length, |values| sixteen::store(data, values));
    }
}

/// All that recovering and giving the data look at, but the lengths of their buffers.
type Survivors = (Refusal, [u8; 16], &'static [u32]);

fn survivors() -> Vec<Survivors> {
    let with = |tray: usize, value| {
        let mut values = WORD;
        values[tray] = value;
        values
    };
    let ten = &[0, 1, 2, 3, 4, 5, 6, 7, 8, 9];
    vec![
        (Refusal::Number, WORD, &[16, 1, 1]),
        (Refusal::Number, with(2, 16), &[1, 1]),
        (Refusal::Number, with(15, 255), ten),
        (Refusal::Order, with(1, 16), &[1, 1]),
        (Refusal::Order, WORD, &[2, 1, 3, 4, 5, 6, 7, 8, 9, 10]),
        (Refusal::Count, with(9, 16), ten),
        (Refusal::Survivors, with(12, 5), &[0, 1, 2, 3, 4, 5, 6, 7]),
        (Refusal::Survivors, with(0, 0), &[]),
    ]
}

#[test]
fn recovering() {
    for (ground, values, erased) in survivors() {
        let mut lent = values;
        assert_eq!(sixteen::recover(&mut lent, &trays(erased)), Err(ground));
        assert_eq!(lent, values);
    }
    refused(Refusal::Length, 15, |values| {
        sixteen::recover(values, &trays(&[16]))
    });
}

#[test]
fn giving_the_data() {
    for (ground, values, erased) in survivors() {
        refused(ground, 7, |data| {
            sixteen::data(&values, &trays(erased), data)
        });
    }
    for (values, length) in [(&WORD[..15], 7), (&WORD, 6), (&WORD, 8)] {
        refused(Refusal::Length, length, |data| {
            sixteen::data(values, &trays(&[16]), data)
        });
    }
}

#[test]
fn sharing() {
    for (ground, host, helper, rack, length) in [
        (Refusal::Length, 4, 4, &[16; 3][..], 1),
        (Refusal::Length, 4, 4, &[16; 4], 0),
        (Refusal::Number, 4, 4, &[1; 4], 1),
        (Refusal::Number, 0, 4, &[1; 4], 1),
        (Refusal::Number, 3, 3, &[1, 1, 1, 16], 1),
        (Refusal::Host, 3, 3, &[1; 4], 1),
    ] {
        let (host, helper) = (Rack::new(host), Rack::new(helper));
        refused(ground, length, |share| {
            sixteen::share(host, helper, rack, share)
        });
    }
}

#[test]
fn repairing() {
    let (differ, outside) = (&[SHARE, 0][..], &[1, 0, 4][..]);
    for (ground, lost, helpers, shares, host, length) in [
        (Refusal::Length, 16, outside, &[16; 3][..], &[16; 4][..], 1),
        (Refusal::Length, 16, outside, &[16; 2], &[16; 5], 1),
        (Refusal::Length, 16, outside, &[16; 2], &[16; 4], 2),
        (Refusal::Number, 16, &[1, 0, 2], differ, &WORD[..4], 1),
        (Refusal::Number, 1, outside, differ, &WORD[..4], 1),
        (Refusal::Number, 1, &[1, 0, 2], &[0, 16], &WORD[..4], 1),
        (Refusal::Number, 1, &[1, 0, 2], differ, &[0, 0, 0, 16], 1),
        (Refusal::Order, 1, &[1, 0, 2], differ, &[0, 16, 0, 0], 1),
        (Refusal::Count, 1, &[0, 1, 2], differ, &WORD[..4], 1),
        (Refusal::Count, 1, &[0], differ, &WORD[..4], 1),
        (Refusal::Host, 1, &[0, 1], differ, &WORD[..4], 1),
        (Refusal::Survivors, 1, &[1, 2], differ, &WORD[..4], 1),
    ] {
        let (lost, helpers) = (Tray::new(lost), racks(helpers));
        refused(ground, length, |spare| {
            sixteen::repair(lost, &helpers, shares, host, spare)
        });
    }
}

/// What the refused cases are made of is not refused.
#[test]
fn the_word() {
    let mut values = [0; 16];
    assert_eq!(sixteen::store(&[1, 2, 3, 4, 5, 6, 7], &mut values), Ok(()));
    assert_eq!(values, WORD);
    let mut spare = [0; 1];
    let host = [1, 16, 11, 9];
    let repaired = sixteen::repair(
        Tray::new(1),
        &racks(&[1, 2]),
        &[SHARE; 2],
        &host,
        &mut spare,
    );
    assert_eq!(repaired, Ok(sixteen::Repaired { crossed: 2 }));
    assert_eq!(spare, WORD[1..2]);
}
