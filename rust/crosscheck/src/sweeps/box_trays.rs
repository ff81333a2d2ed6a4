//! Each tray of the sixteen-tray box: its repair by every list of racks, with
//! equal shares and with shares that differ; and every value in its place, which
//! is looked at exactly where the tray is neither lost nor listed.

use super::Sweep;
use crate::calls::sixteen::{difference, erase, inputs, rack_of, recover, repair, share, word};
use crate::calls::Call;
use crate::crosscheck::Crosscheck;
use crate::inputs::{Inputs, Value};
use reference::sixteen::{RACKS, SIZE, TRAYS};

/// An item is a tray.
pub const SWEEP: Sweep = Sweep {
    name: "box trays",
    items: |_| TRAYS,
    short_step: 5,
    item,
};

fn item(all: &mut Crosscheck, tray: usize) {
    let word = word(&mut all.source.random);
    for set in 0..1 << RACKS {
        repairs(all, &word, tray as u32, set);
    }
    for value in 0..=u8::MAX {
        places(all, &word, tray, value);
    }
}

/// The repair by a set of racks: 5 where they are not two, 6 where the host is
/// among them, else the word's value; and 8 with a share that differs.
fn repairs(all: &mut Crosscheck, word: &[u8], tray: u32, set: u32) {
    let helpers: Vec<u32> = (0..RACKS as u32)
        .filter(|rack| set >> rack & 1 == 1)
        .collect();
    let host = tray / SIZE as u32;
    let refusal = match helpers.len() {
        2 if helpers.contains(&host) => 6,
        2 => 0,
        _ => 5,
    };
    let mut inputs = repair::of_word(&mut all.source.random, word, tray, &helpers);
    inputs.values[2] = Value::Bytes(vec![sent(all, word, host); 2]);
    let answer = answered(all, &repair::CALL, &inputs, refusal);
    if refusal == 0 {
        let value = word[tray as usize];
        all.run.claim(answer == [value], || {
            format!("box_repair {inputs}: {answer:?}, not {value}")
        });
        let mut differ = inputs.bytes(2).to_vec();
        differ[1] ^= difference(&mut all.source.random);
        inputs.values[2] = Value::Bytes(differ);
        answered(all, &repair::CALL, &inputs, 8);
    }
}

/// What every other rack sends for a host, by the library: of a word they send
/// the same.
fn sent(all: &mut Crosscheck, word: &[u8], host: u32) -> u8 {
    let helpers = (0..RACKS as u32).filter(|&rack| rack != host);
    let mut shares = vec![];
    for helper in helpers {
        let rack = rack_of(word, helper);
        let inputs = share::inputs(&mut all.source.random, host, helper, rack);
        shares.extend(answered(all, &share::CALL, &inputs, 0));
    }
    all.run
        .claim(shares.iter().all(|&share| share == shares[0]), || {
            format!("the shares of a word for rack {host}: {shares:?}")
        });
    shares[0]
}

/// A value in the tray's place: listed, it is never looked at; not listed, it is
/// 3 where it is above 15, 8 where it is another symbol than the word's.
fn places(all: &mut Crosscheck, word: &[u8], tray: usize, value: u8) {
    let mut values = word.to_vec();
    values[tray] = value;
    let looked_at = match value {
        16.. => 3,
        _ if value == word[tray] => 0,
        _ => 8,
    };
    let random = &mut all.source.random;
    let other = (tray as u32 + 1 + random.below(TRAYS - 1) as u32) % TRAYS as u32;
    let kept = erase(random, values.clone(), &[other]);
    let listed = inputs(vec![Value::Bytes(values), Value::List(vec![tray as u32])]);
    answered(all, &recover::CALL, &kept, looked_at);
    answered(all, &recover::CALL, &listed, 0);
    let helpers: Vec<u32> = (0..RACKS as u32)
        .filter(|&rack| rack as usize != tray / SIZE)
        .take(2)
        .collect();
    let mut lost = repair::of_word(&mut all.source.random, word, tray as u32, &helpers);
    let mut host = lost.bytes(3).to_vec();
    host[tray % SIZE] = value;
    lost.values[3] = Value::Bytes(host);
    answered(all, &repair::CALL, &lost, 0);
}

/// Claims the ground, and gives what the buffer holds afterwards.
fn answered(all: &mut Crosscheck, call: &Call, inputs: &Inputs, refusal: u32) -> Vec<u8> {
    let answer = all.run.compare(call, inputs);
    all.run.claim(answer.refusal == refusal, || {
        format!("{} {inputs}: {answer}, not {refusal}", call.name)
    });
    answer.bytes().to_vec()
}
