//! A helper's share for a lost tray of the box.

use super::{symbols, Call, Looks};
use crate::answer::Answer;
use crate::inputs::{Inputs, Kind, Value};
use crate::lent::Lent;
use crate::random::Random;
use reference::sixteen::{RACKS, SIZE};

pub const CALL: Call = Call {
    name: "box_share",
    shape: &[Kind::Small, Kind::Small, Kind::Bytes, Kind::Bytes],
    errors: &[0],
    grounds: &[2, 3, 6],
    looks: Looks::AtNone,
    example: |source, _| example(&mut source.random),
    library,
    reference,
};

fn example(random: &mut Random) -> Inputs {
    let host = random.below(RACKS);
    let helper = (host + 1 + random.below(RACKS - 1)) % RACKS;
    let rack = symbols(random, SIZE);
    inputs(random, host as u32, helper as u32, &rack)
}

/// The inputs for these values, over a byte of anything.
pub fn inputs(random: &mut Random, host: u32, helper: u32, rack: &[u8]) -> Inputs {
    super::inputs(vec![
        Value::Small(host),
        Value::Small(helper),
        Value::Bytes(rack.to_vec()),
        Value::Bytes(random.bytes(1)),
    ])
}

fn library(inputs: &Inputs) -> Answer {
    let [host, helper] = [0, 1].map(|at| gesarumbo::Rack::new(inputs.small(at)));
    let rack = Lent::bytes(inputs.bytes(2));
    let mut share = Lent::bytes(inputs.bytes(3));
    let shared = gesarumbo::sixteen::share(host, helper, rack.part(), share.part_mut());
    Answer::new(shared.map(|()| []))
        .written_bytes(&share)
        .read("the helper's rack", &rack)
}

fn reference(inputs: &Inputs) -> Answer {
    let [host, helper] = [0, 1].map(|at| reference::Rack(inputs.small(at)));
    let [rack, share] = [inputs.bytes(2), inputs.bytes(3)];
    Answer::filled_bytes(share, reference::sixteen::share(host, helper, rack, share))
}
