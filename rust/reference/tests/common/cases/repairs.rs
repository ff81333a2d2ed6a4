//! The repair calls.

use super::{put_last, shorten, Case, Fault, Put};
use crate::common::{codeword, rack_of, shares_of_many, symbol, Dice, Tried};
use reference::*;

#[derive(Clone)]
pub struct RepairMany<F: Field> {
    pub layout: Layout<F>,
    pub lost: Vec<Tray>,
    pub helpers: Vec<Rack>,
    pub shares: Vec<F::Symbol>,
    pub host: Vec<F::Symbol>,
    pub spare: Vec<F::Symbol>,
    pub first: u64,
    pub budget: u64,
}

impl<F: Tried> RepairMany<F> {
    /// The whole repair of these lost trays of a codeword, whose old symbols and
    /// whose spare hold anything.
    pub fn whole(
        layout: Layout<F>,
        codeword: &[F::Symbol],
        lost: &[Tray],
        helpers: &[Rack],
        dice: &mut Dice,
    ) -> RepairMany<F> {
        let numbers = layout.numbers().unwrap();
        let host = lost[0].0 / layout.size;
        let mut rack = rack_of(&numbers, codeword, host as usize);
        for tray in lost {
            let place = tray.0 as usize % numbers.size;
            rack[place * numbers.layers..][..numbers.layers]
                .copy_from_slice(&dice.symbols::<F>(numbers.layers));
        }
        RepairMany {
            layout,
            lost: lost.to_vec(),
            helpers: helpers.to_vec(),
            shares: shares_of_many(layout, codeword, lost.len(), Rack(host), helpers),
            host: rack,
            spare: dice.symbols::<F>(lost.len() * numbers.layers),
            first: 0,
            budget: u64::MAX,
        }
    }

    pub fn run(&self) -> Result<Repaired<F::Symbol>, Refusal> {
        let given = GivenMany {
            lost: &self.lost,
            helpers: &self.helpers,
            shares: &self.shares,
            host: &self.host,
        };
        repair_many(self.layout, given, &self.spare, self.first, self.budget)
    }

    /// These lost trays, with buffers that fit.
    pub fn set_lost(&mut self, lost: &[u32]) {
        let numbers = self.layout.numbers().unwrap();
        self.lost = lost.iter().copied().map(Tray).collect();
        let length = lost.len() * numbers.helpers * numbers.groups;
        self.shares.resize(length, symbol::<F>(4));
        let length = lost.len() * numbers.layers;
        self.spare.resize(length, symbol::<F>(5));
    }

    pub fn set_helpers(&mut self, helpers: &[u32]) {
        self.helpers = helpers.iter().copied().map(Rack).collect();
    }

    /// The places of the host rack that are listed, or those that are not.
    fn places(&self, listed: bool) -> Vec<usize> {
        let size = F::SHAPE[1];
        let is_listed = |place: &u32| self.lost.contains(&Tray(size + place));
        (0..size)
            .filter(|place| is_listed(place) == listed)
            .map(|place| place as usize)
            .collect()
    }

    /// Puts a number in the last layer of the first sound tray.
    fn put_sound(&mut self, number: F::Symbol) {
        let place = self.places(false)[0];
        self.host[place * 32 + 31] = number;
    }

    /// Puts it in all layers of the lost trays.
    fn put_lost(&mut self, number: F::Symbol) {
        for place in self.places(true) {
            self.host[place * 32..][..32].fill(number);
        }
    }
}

/// Three trays of rack 1: the first two and the last.
fn three<F: Tried>() -> [u32; 3] {
    let size = F::SHAPE[1];
    [size, size + 1, 2 * size - 1]
}

impl<F: Tried> Case for RepairMany<F> {
    type Field = F;

    const FAULTS: &'static [Fault<RepairMany<F>>] = &[
        (Refusal::Layout, |case| case.layout = F::INADMISSIBLE.into()),
        (Refusal::Length, |case| shorten(&mut case.shares)),
        (Refusal::Length, |case| case.host.push(F::ONE)),
        (Refusal::Length, |case| shorten(&mut case.spare)),
        (Refusal::Number, |case| case.lost[1] = Tray(5 * F::SHAPE[1])),
        (Refusal::Number, |case| case.lost[0] = Tray(F::SHAPE[1] - 1)),
        (Refusal::Number, |case| case.helpers[1] = Rack(u32::MAX)),
        (Refusal::Order, |case| case.lost.swap(0, 1)),
        (Refusal::Order, |case| case.helpers[1] = case.helpers[0]),
        (Refusal::Count, |case| shorten(&mut case.helpers)),
        (Refusal::Count, |case| case.set_helpers(&[0, 1, 2, 3, 4])),
        (Refusal::LostCount, |case| case.set_lost(&three::<F>())),
        (Refusal::Host, |case| case.helpers[0] = Rack(1)),
        (Refusal::FirstGroup, |case| case.first = 17),
    ];

    const SEEN: &'static [Put<RepairMany<F>>] = &[
        |case, number| case.shares[0] = number,
        |case, number| put_last(&mut case.shares, number),
        |case, number| case.put_sound(number),
    ];
    const UNSEEN: &'static [Put<RepairMany<F>>] = &[
        |case, number| case.spare.fill(number),
        |case, number| case.put_lost(number),
    ];

    fn sound() -> RepairMany<F> {
        let layout = F::SHAPE.into();
        let whole = codeword(layout, 12);
        let size = F::SHAPE[1];
        let lost = [size, 2 * size - 1].map(Tray);
        let helpers = [0, 2, 4].map(Rack);
        let dice = &mut Dice::new(13);
        RepairMany::whole(layout, &whole, &lost, &helpers, dice)
    }

    fn with_layout(self, layout: Layout<F>) -> RepairMany<F> {
        RepairMany { layout, ..self }
    }

    fn refusal(&self) -> Option<Refusal> {
        self.run().err()
    }

    fn looks(&self) -> bool {
        self.first <= 16
    }
}

/// The call for one lost tray: the same with a list of one.
#[derive(Clone)]
pub struct Repair<F: Field>(pub RepairMany<F>);

impl<F: Tried> Repair<F> {
    pub fn run(&self) -> Result<Repaired<F::Symbol>, Refusal> {
        let case = &self.0;
        let given = Given {
            lost: case.lost[0],
            helpers: &case.helpers,
            shares: &case.shares,
            host: &case.host,
        };
        repair(case.layout, given, &case.spare, case.first, case.budget)
    }
}

impl<F: Tried> Case for Repair<F> {
    type Field = F;

    const FAULTS: &'static [Fault<Repair<F>>] = &[
        (Refusal::Layout, |case| {
            case.0.layout = F::INADMISSIBLE.into()
        }),
        (Refusal::Length, |case| shorten(&mut case.0.shares)),
        (Refusal::Length, |case| case.0.host.push(F::ONE)),
        (Refusal::Length, |case| shorten(&mut case.0.spare)),
        (Refusal::Number, |case| {
            case.0.lost[0] = Tray(5 * F::SHAPE[1])
        }),
        (Refusal::Number, |case| case.0.helpers[1] = Rack(u32::MAX)),
        (Refusal::Order, |case| case.0.helpers[1] = case.0.helpers[0]),
        (Refusal::Count, |case| shorten(&mut case.0.helpers)),
        (Refusal::Count, |case| case.0.set_helpers(&[0, 1, 2, 3, 4])),
        (Refusal::Host, |case| case.0.helpers[0] = Rack(1)),
        (Refusal::FirstGroup, |case| case.0.first = 17),
    ];

    const SEEN: &'static [Put<Repair<F>>] = &[
        |case, number| case.0.shares[0] = number,
        |case, number| put_last(&mut case.0.shares, number),
        |case, number| case.0.put_sound(number),
    ];
    const UNSEEN: &'static [Put<Repair<F>>] = &[
        |case, number| case.0.spare.fill(number),
        |case, number| case.0.put_lost(number),
    ];

    fn sound() -> Repair<F> {
        let layout = F::SHAPE.into();
        let whole = codeword(layout, 14);
        let helpers = [0, 2, 4].map(Rack);
        let lost = [Tray(F::SHAPE[1] + 1)];
        let dice = &mut Dice::new(15);
        Repair(RepairMany::whole(layout, &whole, &lost, &helpers, dice))
    }

    fn with_layout(self, layout: Layout<F>) -> Repair<F> {
        Repair(self.0.with_layout(layout))
    }

    fn refusal(&self) -> Option<Refusal> {
        self.run().err()
    }

    fn looks(&self) -> bool {
        self.0.looks()
    }
}
