//! The bench book of document 01, every line.

mod common;

use common::codeword;
use reference::*;

fn layout(numbers: [u32; 4]) -> Layout<Field256> {
    numbers.into()
}

fn measured(numbers: [u32; 4]) -> Result<(u32, u32, u32), u32> {
    let answer = measure(layout(numbers));
    answer
        .map(|m| (m.layers, m.checks, m.traffic))
        .map_err(Refusal::number)
}

#[test]
fn layouts() {
    assert_eq!(measured([4, 3, 8, 3]), Ok((16, 4, 24)));
    let refused = [
        [4, 4, 8, 3],
        [4, 3, 2, 3],
        [4, 3, 10, 3],
        [4, 3, 8, 4],
        [4, 3, 8, 1],
    ];
    assert!(refused.iter().all(|&numbers| measured(numbers) == Err(1)));
    assert_eq!(
        measured([10, 3, 24, 9]).map(|(layers, ..)| layers),
        Ok(1024)
    );
    assert_eq!(
        measured([11, 3, 27, 10]).map(|(layers, ..)| layers),
        Ok(2048)
    );
    assert_eq!(measured([7, 5, 24, 6]).map(|(layers, ..)| layers), Ok(2187));
    assert_eq!(measured([13, 3, 33, 12]), Err(1));
}

#[test]
fn one_byte_stored() {
    assert_eq!(
        store(layout([2, 1, 1, 1]), &[0xA7], &[0, 0]),
        Ok(vec![0xA7, 0xA7])
    );
}

const DATA: [u8; 8] = [0x14, 0x14, 0x18, 0x18, 0x24, 0x24, 0x28, 0x28];
const TRAY_1: [u8; 8] = [0x11, 0x12, 0x11, 0x12, 0x21, 0x22, 0x21, 0x22];
const TRAY_2: [u8; 8] = [0x05, 0x06, 0x09, 0x0A, 0x05, 0x06, 0x09, 0x0A];

#[test]
fn eight_layers_stored() {
    let stored = store(layout([3, 1, 1, 2]), &DATA, &[0; 24]);
    assert_eq!(stored, Ok([DATA, TRAY_1, TRAY_2].concat()));
}

#[test]
fn shares_and_traffic() {
    let layout = layout([3, 1, 1, 2]);
    let of = |host, helper, rack| share(layout, Rack(host), Rack(helper), rack, &[0; 4]);
    assert_eq!(of(0, 1, &TRAY_1), Ok(vec![3; 4]));
    assert_eq!(of(0, 2, &TRAY_2), Ok(vec![3; 4]));
    assert_eq!(of(1, 0, &DATA), Ok(vec![0x0C; 4]));
    let given = Given {
        lost: Tray(0),
        helpers: &[Rack(1), Rack(2)],
        shares: &[3; 8],
        host: &[0; 8],
    };
    let repaired = repair(layout, given, &[0; 8], 0, 4).unwrap();
    assert_eq!(
        (repaired.groups, repaired.crossed, repaired.remaining),
        (4, 8, 0)
    );
    assert_eq!(repaired.spare, DATA);
}

#[test]
fn a_lost_tray_is_the_sum_of_the_other_five() {
    let layout = layout([2, 3, 3, 1]);
    let whole = codeword(layout, 1);
    for lost in 0..6 {
        let others = (0..6)
            .filter(|&tray| tray != lost)
            .fold(0, |sum, tray| sum ^ whole[tray]);
        assert_eq!(whole[lost], others);
        let host = lost / 3;
        let helper = 1 - host;
        let shares = common::shares(layout, &whole, Rack(host as u32), &[Rack(helper as u32)]);
        let given = Given {
            lost: Tray(lost as u32),
            helpers: &[Rack(helper as u32)],
            shares: &shares,
            host: &whole[host * 3..host * 3 + 3],
        };
        assert_eq!(repair(layout, given, &[0], 0, 1).unwrap().spare, [others]);
    }
}

#[test]
fn margins() {
    let layout = layout([4, 3, 8, 3]);
    let present = |count: usize| {
        (0..12)
            .map(|tray| u8::from(tray < count))
            .collect::<Vec<u8>>()
    };
    assert_eq!(margin(layout, &present(7)), Ok(-1));
    assert_eq!(margin(layout, &present(12)), Ok(4));
    let mut some_reset = present(12);
    some_reset[7..].fill(2);
    assert_eq!(margin(layout, &some_reset), Ok(-1));
}

#[test]
fn the_image() {
    let layout = layout([2, 1, 1, 1]);
    let written = write_image(layout, Tray(1), 1, 7, &[0xA7], &[0; 25]).unwrap();
    let expected = [
        0x18, 0x00, 0x01, 0x01, 0x02, 0x01, 0x01, 0x01, 0x01, 0x00, 0x00, 0x00, 0x07, 0x00, 0x00,
        0x00, 0x18, 0x00, 0x00, 0x00, 0x01, 0x00, 0x00, 0x00, 0xA7,
    ];
    assert_eq!(written, expected);
    let read = read_image(layout, 7, &written);
    assert_eq!(
        read,
        Ok(Image {
            tray: Tray(1),
            symbols: &[0xA7]
        })
    );
}
