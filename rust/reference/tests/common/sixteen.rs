//! The box's calls with all they are given, and the faults for which they are
//! refused.

use super::cases::Fault;
use super::Dice;
use reference::sixteen::{self, Given, Repaired, DIMENSION, SIZE, TRAYS};
use reference::*;

/// A call of the box with all it is given.
pub trait BoxCase: Clone + 'static {
    const FAULTS: &'static [Fault<Self>];

    /// A case that isn't refused.
    fn sound() -> Self;

    fn refusal(&self) -> Option<Refusal>;
}

/// So many symbols of the field of 16.
pub fn symbols(dice: &mut Dice, count: usize) -> Vec<u8> {
    dice.bytes(count).iter().map(|byte| byte % 16).collect()
}

/// The word of some data.
pub fn word(dice: &mut Dice) -> Vec<u8> {
    sixteen::store(&symbols(dice, DIMENSION), &[0; TRAYS]).unwrap()
}

/// A rack's values of a word.
pub fn rack_of(values: &[u8], rack: u32) -> Vec<u8> {
    values[SIZE * rack as usize..][..SIZE].to_vec()
}

pub fn trays(numbers: &[u32]) -> Vec<Tray> {
    numbers.iter().copied().map(Tray).collect()
}

fn racks(numbers: &[u32]) -> Vec<Rack> {
    numbers.iter().copied().map(Rack).collect()
}

#[derive(Clone)]
pub struct BoxStore {
    pub data: Vec<u8>,
    pub values: Vec<u8>,
}

impl BoxStore {
    pub fn run(&self) -> Result<Vec<u8>, Refusal> {
        sixteen::store(&self.data, &self.values)
    }
}

impl BoxCase for BoxStore {
    const FAULTS: &'static [Fault<BoxStore>] = &[
        (Refusal::Length, |case| case.data.push(1)),
        (Refusal::Length, |case| case.data.truncate(6)),
        (Refusal::Length, |case| case.values.push(1)),
        (Refusal::Length, |case| case.values.clear()),
        (Refusal::Number, |case| case.data[0] = 16),
        (Refusal::Number, |case| case.data[5] = 255),
    ];

    fn sound() -> BoxStore {
        let mut dice = Dice::new(111);
        BoxStore {
            data: symbols(&mut dice, DIMENSION),
            values: dice.bytes(TRAYS),
        }
    }

    fn refusal(&self) -> Option<Refusal> {
        self.run().err()
    }
}

#[derive(Clone)]
pub struct BoxRecover {
    pub values: Vec<u8>,
    pub erased: Vec<Tray>,
}

impl BoxRecover {
    /// A word whose trays listed hold anything.
    pub fn of_word(mut values: Vec<u8>, erased: &[u32], dice: &mut Dice) -> BoxRecover {
        for &tray in erased {
            values[tray as usize] = dice.byte();
        }
        BoxRecover {
            values,
            erased: trays(erased),
        }
    }

    pub fn run(&self) -> Result<Vec<u8>, Refusal> {
        sixteen::recover(&self.values, &self.erased)
    }
}

impl BoxCase for BoxRecover {
    const FAULTS: &'static [Fault<BoxRecover>] = &[
        (Refusal::Length, |case| case.values.push(1)),
        (Refusal::Length, |case| case.values.truncate(15)),
        (Refusal::Number, |case| case.erased[0] = Tray(16)),
        (Refusal::Number, |case| case.erased[3] = Tray(u32::MAX)),
        (Refusal::Number, |case| case.values[11] = 16),
        (Refusal::Number, |case| case.values[14] = 255),
        (Refusal::Order, |case| case.erased[1] = case.erased[0]),
        (Refusal::Order, |case| case.erased.reverse()),
        (Refusal::Count, |case| {
            case.erased = (0..10).map(Tray).collect()
        }),
        (Refusal::Survivors, |case| case.values[14] ^= 1),
        (Refusal::Survivors, |case| case.values[11] ^= 8),
    ];

    fn sound() -> BoxRecover {
        let mut dice = Dice::new(112);
        let word = word(&mut dice);
        let mut case = BoxRecover::of_word(word, &[1, 5, 8, 13, 15], &mut dice);
        // A tray that a fault takes from the list is to hold a symbol.
        case.values.iter_mut().for_each(|value| *value %= 16);
        case
    }

    fn refusal(&self) -> Option<Refusal> {
        self.run().err()
    }
}

#[derive(Clone)]
pub struct BoxData {
    pub from: BoxRecover,
    pub data: Vec<u8>,
}

impl BoxData {
    pub fn run(&self) -> Result<Vec<u8>, Refusal> {
        sixteen::data(&self.from.values, &self.from.erased, &self.data)
    }
}

impl BoxCase for BoxData {
    const FAULTS: &'static [Fault<BoxData>] = &[
        (Refusal::Length, |case| case.from.values.push(1)),
        (Refusal::Length, |case| case.data.push(1)),
        (Refusal::Length, |case| case.data.truncate(6)),
        (Refusal::Number, |case| case.from.erased[1] = Tray(16)),
        (Refusal::Number, |case| case.from.values[2] = 16),
        (Refusal::Order, |case| case.from.erased.swap(2, 3)),
        (Refusal::Count, |case| {
            case.from.erased = (4..14).map(Tray).collect()
        }),
        (Refusal::Survivors, |case| case.from.values[6] ^= 5),
    ];

    fn sound() -> BoxData {
        BoxData {
            from: BoxRecover::sound(),
            data: Dice::new(113).bytes(DIMENSION),
        }
    }

    fn refusal(&self) -> Option<Refusal> {
        self.run().err()
    }
}

#[derive(Clone)]
pub struct BoxShare {
    pub host: Rack,
    pub helper: Rack,
    pub rack: Vec<u8>,
    pub share: Vec<u8>,
}

impl BoxShare {
    pub fn run(&self) -> Result<Vec<u8>, Refusal> {
        sixteen::share(self.host, self.helper, &self.rack, &self.share)
    }
}

impl BoxCase for BoxShare {
    const FAULTS: &'static [Fault<BoxShare>] = &[
        (Refusal::Length, |case| case.rack.push(1)),
        (Refusal::Length, |case| case.rack.truncate(3)),
        (Refusal::Length, |case| case.share.push(1)),
        (Refusal::Length, |case| case.share.clear()),
        (Refusal::Number, |case| case.host = Rack(4)),
        (Refusal::Number, |case| case.helper = Rack(u32::MAX)),
        (Refusal::Number, |case| case.rack[3] = 16),
        (Refusal::Host, |case| case.host = case.helper),
    ];

    fn sound() -> BoxShare {
        let mut dice = Dice::new(114);
        BoxShare {
            host: Rack(2),
            helper: Rack(1),
            rack: symbols(&mut dice, SIZE),
            share: dice.bytes(1),
        }
    }

    fn refusal(&self) -> Option<Refusal> {
        self.run().err()
    }
}

#[derive(Clone)]
pub struct BoxRepair {
    pub lost: Tray,
    pub helpers: Vec<Rack>,
    pub shares: Vec<u8>,
    pub host: Vec<u8>,
    pub spare: Vec<u8>,
}

impl BoxRepair {
    /// The repair of a word's tray, whose old value and whose spare hold
    /// anything.
    pub fn of_word(values: &[u8], lost: u32, helpers: &[u32], dice: &mut Dice) -> BoxRepair {
        let rack = lost / SIZE as u32;
        let share = |&helper: &u32| {
            let values = rack_of(values, helper);
            sixteen::share(Rack(rack), Rack(helper), &values, &[0]).unwrap()[0]
        };
        let mut host = rack_of(values, rack);
        host[lost as usize % SIZE] = dice.byte();
        BoxRepair {
            lost: Tray(lost),
            helpers: racks(helpers),
            shares: helpers.iter().map(share).collect(),
            host,
            spare: dice.bytes(1),
        }
    }

    pub fn run(&self) -> Result<Repaired, Refusal> {
        let given = Given {
            lost: self.lost,
            helpers: &self.helpers,
            shares: &self.shares,
            host: &self.host,
        };
        sixteen::repair(given, &self.spare)
    }
}

impl BoxCase for BoxRepair {
    const FAULTS: &'static [Fault<BoxRepair>] = &[
        (Refusal::Length, |case| case.shares.push(1)),
        (Refusal::Length, |case| case.host.truncate(3)),
        (Refusal::Length, |case| case.spare.push(1)),
        (Refusal::Length, |case| case.spare.clear()),
        (Refusal::Number, |case| case.lost = Tray(16)),
        (Refusal::Number, |case| case.lost = Tray(u32::MAX)),
        (Refusal::Number, |case| case.helpers[1] = Rack(4)),
        (Refusal::Number, |case| case.shares[1] = 16),
        (Refusal::Number, |case| case.host[3] = 255),
        (Refusal::Order, |case| case.helpers.reverse()),
        (Refusal::Order, |case| case.helpers[1] = case.helpers[0]),
        (Refusal::Count, |case| case.helpers = racks(&[0, 1, 3])),
        (Refusal::Host, |case| case.helpers = racks(&[0, 2])),
        (Refusal::Survivors, |case| case.shares[0] ^= 4),
    ];

    fn sound() -> BoxRepair {
        let mut dice = Dice::new(115);
        let word = word(&mut dice);
        BoxRepair::of_word(&word, 9, &[0, 3], &mut dice)
    }

    fn refusal(&self) -> Option<Refusal> {
        self.run().err()
    }
}
