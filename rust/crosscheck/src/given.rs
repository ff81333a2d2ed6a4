//! What a repair goes by, all of its pieces alike.

use crate::answer::Answer;
use crate::cabinet::Cabinet;
use crate::calls::card_print::Place;
use crate::calls::repair::{budget, SPARE};
use crate::calls::{many_shares, Call};
use crate::field::Symbol;
use crate::inputs::{Inputs, Value};
use crate::pair::{self, for_one};
use crate::random::Random;

#[derive(Clone, Debug)]
pub struct Given {
    pub cabinet: Cabinet,
    /// Trays of one rack, rising.
    pub lost: Vec<u32>,
    pub helpers: Vec<u32>,
    pub shares: Vec<Symbol>,
    pub host: Vec<Symbol>,
}

impl Given {
    /// Random helpers for these lost trays, with the shares and sound trays of a
    /// codeword or with any others.
    pub fn draw(random: &mut Random, cabinet: &Cabinet, lost: Vec<u32>) -> Given {
        if random.one_in(2) {
            let codeword = cabinet.codeword(random);
            let answer = |call: &Call, inputs: &Inputs| (call.reference)(inputs);
            Given::of_codeword(random, cabinet, &codeword, lost, answer)
        } else {
            Given::of_no_codeword(random, cabinet, lost)
        }
    }

    /// Random helpers with the shares that a program answers for them.
    pub fn of_codeword(
        random: &mut Random,
        cabinet: &Cabinet,
        codeword: &[Symbol],
        lost: Vec<u32>,
        mut answer: impl FnMut(&Call, &Inputs) -> Answer,
    ) -> Given {
        let host = rack_of(cabinet, &lost);
        let helpers = helpers(random, cabinet, host);
        let mut shares = vec![];
        for &helper in &helpers {
            let rack = &codeword[cabinet.rack(helper)];
            // Where too many are lost, these stay: shares of anything.
            let noise = random.symbols(cabinet.field, lost.len() * cabinet.numbers.groups);
            let inputs = many_shares(cabinet, lost.len(), host, helper, rack, noise);
            let (call, inputs) = pair::SHARE.either(random, inputs);
            shares.extend(answer(call, &inputs).symbols());
        }
        let host = codeword[cabinet.rack(host)].to_vec();
        Given {
            cabinet: *cabinet,
            lost,
            helpers,
            shares,
            host,
        }
    }

    fn of_no_codeword(random: &mut Random, cabinet: &Cabinet, lost: Vec<u32>) -> Given {
        let helpers = helpers(random, cabinet, rack_of(cabinet, &lost));
        let length = lost.len() * cabinet.numbers.helpers * cabinet.numbers.groups;
        let shares = random.symbols(cabinet.field, length);
        let host = random.symbols(cabinet.field, cabinet.rack(0).len());
        Given {
            cabinet: *cabinet,
            lost,
            helpers,
            shares,
            host,
        }
    }

    /// A spare that holds anything.
    pub fn spare(&self, random: &mut Random) -> Vec<Symbol> {
        let length = self.lost.len() * self.cabinet.numbers.layers;
        random.noise(self.cabinet.field, length)
    }

    /// The group of a place in the spare or in the host rack.
    pub fn group(&self, at: usize) -> usize {
        let numbers = &self.cabinet.numbers;
        numbers.group(self.rack() as usize, at % numbers.layers)
    }

    /// The host rack's number.
    pub fn rack(&self) -> u32 {
        rack_of(&self.cabinet, &self.lost)
    }

    /// The symbols that cross for each group.
    pub fn symbols(&self) -> i128 {
        (self.lost.len() * self.cabinet.numbers.helpers) as i128
    }

    /// A piece by the call for several lost trays, or at random by the one for
    /// one tray where one is lost.
    pub fn piece(
        &self,
        random: &mut Random,
        spare: &[Symbol],
        first: u64,
        budget: u64,
    ) -> (&'static Call, Inputs) {
        let inputs = self.inputs(random, spare, first, budget);
        pair::REPAIR.either(random, inputs)
    }

    /// The inputs of the call that does all groups and allows for a wrong share; one
    /// tray is lost.
    pub fn all_groups(&self, random: &mut Random, spare: &[Symbol]) -> Inputs {
        let mut inputs = for_one(&self.inputs(random, spare, 0, 0)).expect("one is lost");
        inputs.values.truncate(SPARE + 1);
        inputs
    }

    /// The inputs of the repair of a group by a card; one tray is lost.
    pub fn by_card(
        &self,
        random: &mut Random,
        spare: &[Symbol],
        group: u64,
        card: Vec<Symbol>,
    ) -> Inputs {
        let mut inputs = self.all_groups(random, spare);
        let last = [Value::Wide(group), Value::Symbols(card)];
        inputs.values.extend(last);
        inputs
    }

    /// What a card of its first group is for; one tray is lost.
    pub fn place(&self) -> Place {
        Place {
            cabinet: self.cabinet,
            lost: self.lost[0],
            helpers: self.helpers.clone(),
            group: 0,
        }
    }

    /// Changes the share of a helper, by its place in the list, in these groups.
    pub fn spoil_share(&mut self, random: &mut Random, helper: usize, groups: &[u32]) {
        let field = self.cabinet.field;
        for &group in groups {
            let symbol = &mut self.shares[helper * self.cabinet.numbers.groups + group as usize];
            *symbol = field.add(*symbol, random.nonzero(field));
        }
    }

    /// The inputs of some piece by the call for several lost trays.
    pub fn some_piece(&self, random: &mut Random) -> Inputs {
        let groups = self.cabinet.numbers.groups;
        let first = match random.below(4) {
            0 => 0,
            1 => groups,
            _ => random.below(groups),
        };
        let budget = budget(random, (groups - first) as u64);
        let spare = self.spare(random);
        self.inputs(random, &spare, first as u64, budget)
    }

    /// The host rack's symbols at the lost trays, which nobody looks at, are noise
    /// of each piece's own.
    pub fn inputs(&self, random: &mut Random, spare: &[Symbol], first: u64, budget: u64) -> Inputs {
        let cabinet = &self.cabinet;
        let mut host = self.host.clone();
        for tray in &self.lost {
            let noise = random.noise(cabinet.field, cabinet.numbers.layers);
            host[cabinet.tray(tray % cabinet.layout[1])].copy_from_slice(&noise);
        }
        cabinet.inputs([
            Value::List(self.lost.clone()),
            Value::List(self.helpers.clone()),
            Value::Symbols(self.shares.clone()),
            Value::Symbols(host),
            Value::Symbols(spare.to_vec()),
            Value::Wide(first),
            Value::Wide(budget),
        ])
    }
}

/// The rack of lost trays, any where there are none.
fn rack_of(cabinet: &Cabinet, lost: &[u32]) -> u32 {
    lost.first().map_or(0, |&tray| cabinet.rack_of(tray))
}

/// Random helpers for a host rack.
pub fn helpers(random: &mut Random, cabinet: &Cabinet, host: u32) -> Vec<u32> {
    random.some_of(cabinet.numbers.helpers, cabinet.other_racks(host))
}
