//! Shares built up tray by tray: each tray of a rack is fed once, at times one of them three times,
//! in any order and with refused calls between. The shares must be those of the whole rack, with the
//! symbols of the tray fed three times taken three times.

use super::Draw;
use crate::cabinet::Cabinet;
use crate::calls::many_shares;
use crate::crosscheck::Crosscheck;
use crate::field::Symbol;
use crate::inputs::Value;
use crate::pair;
use crate::source::EITHER;
use crate::spoil::spoil;

pub const DRAW: Draw = Draw {
    name: "feeds",
    gate: 4_000,
    short: 60,
    case,
};

fn case(all: &mut Crosscheck) {
    let cabinet = all.source.cabinet(EITHER);
    let random = &mut all.source.random;
    let count = cabinet.lost_count(random);
    let length = count * cabinet.numbers.groups;
    let host = random.below(cabinet.numbers.racks) as u32;
    let helper = random.pick(&cabinet.other_racks(host));
    let rack = random.symbols(cabinet.field, cabinet.rack(0).len());
    let mut summed = rack.clone();
    let mut left: Vec<u32> = (0..cabinet.layout[1]).collect();
    if random.one_in(3) {
        let place = random.pick(&left);
        left.extend([place; 2]);
        take_three_times(&cabinet, &mut summed, place);
    }
    let mut held = vec![0; length];
    while !left.is_empty() {
        if all.source.random.one_in(4) {
            held = refused_feed(all, &cabinet, held);
        }
        let random = &mut all.source.random;
        let place = left.swap_remove(random.below(left.len()));
        let symbols = &rack[cabinet.tray(place)];
        let tray = helper * cabinet.layout[1] + place;
        let inputs = many_shares(&cabinet, count, host, tray, symbols, held);
        let (call, inputs) = pair::SHARE_ADD.either(random, inputs);
        held = all.run.compare(call, &inputs).symbols().to_vec();
    }
    let random = &mut all.source.random;
    let noise = random.noise(cabinet.field, length);
    let inputs = many_shares(&cabinet, count, host, helper, &summed, noise);
    let (call, inputs) = pair::SHARE.either(random, inputs);
    let whole = all.run.compare(call, &inputs);
    all.run.claim(held == whole.symbols(), || {
        format!("shares built up tray by tray: {inputs}")
    });
}

/// The symbols of a tray of a rack, added up three times: in the field of 256 they
/// stay as they are.
fn take_three_times(cabinet: &Cabinet, rack: &mut [Symbol], place: u32) {
    let field = cabinet.field;
    for symbol in &mut rack[cabinet.tray(place)] {
        *symbol = field.add(field.add(*symbol, *symbol), *symbol);
    }
}

/// What the shares hold after a call that is refused, or that was none.
fn refused_feed(all: &mut Crosscheck, cabinet: &Cabinet, held: Vec<Symbol>) -> Vec<Symbol> {
    let call = pair::SHARE_ADD.any(&mut all.source.random);
    let mut inputs = (call.example)(&mut all.source, cabinet);
    spoil(&mut all.source, cabinet, &mut inputs, 2);
    inputs.values.pop();
    inputs.values.push(Value::Symbols(held.clone()));
    if (call.reference)(&inputs).refusal == 0 {
        return held;
    }
    all.run.compare(call, &inputs).symbols().to_vec()
}
