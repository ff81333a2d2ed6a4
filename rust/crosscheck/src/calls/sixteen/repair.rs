//! Repairing a lost tray of the box.

use super::{difference, rack_of, symbols, word, Call, Looks, NUMBERS};
use crate::answer::Answer;
use crate::inputs::{Inputs, Kind, Value};
use crate::lent::Lent;
use crate::random::Random;
use reference::sixteen::{top, HELPERS, SIZE, TRAYS};

pub const CALL: Call = Call {
    name: "box_repair",
    shape: &[
        Kind::Small,
        Kind::List,
        Kind::Bytes,
        Kind::Bytes,
        Kind::Bytes,
    ],
    errors: &[0],
    grounds: &[2, 3, 4, 5, 6, 8],
    looks: Looks::AtNone,
    example: |source, _| example(&mut source.random),
    library,
    reference,
};

/// The shares and values of a word, at times with a share damaged, or any equal
/// shares and values.
fn example(random: &mut Random) -> Inputs {
    let lost = random.below(TRAYS) as u32;
    let others = NUMBERS.other_racks(lost / SIZE as u32);
    let helpers = random.some_of(HELPERS, others);
    let word = word(random);
    let mut inputs = of_word(random, &word, lost, &helpers);
    match random.below(4) {
        0 => {
            let mut shares = inputs.bytes(2).to_vec();
            shares[random.below(HELPERS)] ^= difference(random);
            inputs.values[2] = Value::Bytes(shares);
        }
        1 => {
            let share = symbols(random, 1)[0];
            inputs.values[2] = Value::Bytes(vec![share; HELPERS]);
            inputs.values[3] = Value::Bytes(symbols(random, SIZE));
        }
        _ => {}
    }
    inputs
}

/// The repair of a word's tray, whose old value and whose spare hold anything.
pub fn of_word(random: &mut Random, word: &[u8], lost: u32, helpers: &[u32]) -> Inputs {
    let share = |&helper: &u32| top(helper as usize, rack_of(word, helper));
    let mut host = rack_of(word, lost / SIZE as u32).to_vec();
    host[lost as usize % SIZE] = random.byte();
    super::inputs(vec![
        Value::Small(lost),
        Value::List(helpers.to_vec()),
        Value::Bytes(helpers.iter().map(share).collect()),
        Value::Bytes(host),
        Value::Bytes(random.bytes(1)),
    ])
}

fn library(inputs: &Inputs) -> Answer {
    let lost = gesarumbo::Tray::new(inputs.small(0));
    let helpers = Lent::list(inputs.list(1), gesarumbo::Rack::new);
    let [shares, host] = [2, 3].map(|at| Lent::bytes(inputs.bytes(at)));
    let mut spare = Lent::bytes(inputs.bytes(4));
    let repaired = gesarumbo::sixteen::repair(
        lost,
        helpers.part(),
        shares.part(),
        host.part(),
        spare.part_mut(),
    );
    Answer::new(repaired.map(|done| [i128::from(done.crossed)]))
        .written_bytes(&spare)
        .read("the helper list", &helpers)
        .read("the shares", &shares)
        .read("the host rack", &host)
}

fn reference(inputs: &Inputs) -> Answer {
    let helpers: Vec<reference::Rack> = inputs
        .list(1)
        .iter()
        .copied()
        .map(reference::Rack)
        .collect();
    let given = reference::sixteen::Given {
        lost: reference::Tray(inputs.small(0)),
        helpers: &helpers,
        shares: inputs.bytes(2),
        host: inputs.bytes(3),
    };
    let spare = inputs.bytes(4);
    let repaired = reference::sixteen::repair(given, spare);
    let after = repaired.as_ref().ok().map(|done| done.spare.clone());
    Answer::new(repaired.map(|done| [i128::from(done.crossed)])).lent_bytes(spare, after.as_deref())
}
