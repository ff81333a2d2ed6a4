//! The repair from shares of which one may be wrong.

use super::{put_last, shorten, Case, Fault, Put};
use crate::common::{codeword, rack_of, shares, Dice, Tried};
use reference::*;

#[derive(Clone)]
pub struct Correct<F: Field> {
    pub layout: Layout<F>,
    pub lost: Tray,
    pub helpers: Vec<Rack>,
    pub shares: Vec<F::Symbol>,
    pub host: Vec<F::Symbol>,
    pub spare: Vec<F::Symbol>,
}

impl<F: Tried> Correct<F> {
    /// The repair of this lost tray of a codeword from true shares, its old
    /// symbols and the spare holding anything.
    pub fn of(
        layout: Layout<F>,
        codeword: &[F::Symbol],
        lost: Tray,
        helpers: &[Rack],
        dice: &mut Dice,
    ) -> Correct<F> {
        let numbers = layout.numbers().unwrap();
        let host = lost.0 / layout.size;
        let mut rack = rack_of(&numbers, codeword, host as usize);
        let place = lost.0 as usize % numbers.size;
        rack[place * numbers.layers..][..numbers.layers]
            .copy_from_slice(&dice.symbols::<F>(numbers.layers));
        Correct {
            layout,
            lost,
            helpers: helpers.to_vec(),
            shares: shares(layout, codeword, Rack(host), helpers),
            host: rack,
            spare: dice.symbols::<F>(numbers.layers),
        }
    }

    pub fn given(&self) -> Given<'_, F::Symbol> {
        Given {
            lost: self.lost,
            helpers: &self.helpers,
            shares: &self.shares,
            host: &self.host,
        }
    }

    pub fn run(&self) -> Result<Corrected<F::Symbol>, Refusal> {
        repair_correcting(self.layout, self.given(), &self.spare)
    }

    /// The case with the share symbol of a helper, by its place in the list, for
    /// a group changed.
    pub fn with_wrong(&self, helper: usize, group: usize, dice: &mut Dice) -> Correct<F> {
        let mut case = self.clone();
        let groups = case.shares.len() / case.helpers.len();
        let symbol = &mut case.shares[helper * groups + group];
        *symbol = F::add(*symbol, dice.nonzero::<F>());
        case
    }

    /// Two helpers wrong in a group each, where the list is as long as it should
    /// be.
    fn spoil_two(&mut self) {
        for at in [1, 96] {
            if let Some(symbol) = self.shares.get_mut(at) {
                *symbol = F::add(*symbol, F::ONE);
            }
        }
    }
}

impl<F: Tried> Case for Correct<F> {
    type Field = F;

    const FAULTS: &'static [Fault<Correct<F>>] = &[
        (Refusal::Layout, |case| case.layout.errors = 0),
        (Refusal::Layout, |case| case.layout.errors = 2),
        (Refusal::Layout, |case| case.layout.errors = 257),
        (Refusal::Layout, |case| case.layout.helpers = 2),
        (Refusal::Length, |case| shorten(&mut case.shares)),
        (Refusal::Length, |case| case.host.push(F::ONE)),
        (Refusal::Length, |case| shorten(&mut case.spare)),
        (Refusal::Number, |case| case.lost = Tray(6 * F::WARY[1])),
        (Refusal::Number, |case| case.helpers[1] = Rack(u32::MAX)),
        (Refusal::Order, |case| case.helpers[1] = case.helpers[0]),
        (Refusal::Order, |case| case.helpers.reverse()),
        (Refusal::Count, |case| shorten(&mut case.helpers)),
        (Refusal::Count, |case| {
            case.helpers = [0, 1, 2, 3, 5].map(Rack).to_vec()
        }),
        (Refusal::Host, |case| case.helpers[0] = Rack(1)),
        (Refusal::Shares, |case| case.spoil_two()),
    ];

    const SEEN: &'static [Put<Correct<F>>] = &[
        |case, number| case.shares[0] = number,
        |case, number| put_last(&mut case.shares, number),
        |case, number| case.host[2 * 64 - 1] = number,
    ];
    const UNSEEN: &'static [Put<Correct<F>>] = &[
        |case, number| case.spare.fill(number),
        |case, number| case.host[..64].fill(number),
    ];

    fn sound() -> Correct<F> {
        let layout = F::WARY.into();
        let whole = codeword(layout, 16);
        let helpers = [0, 2, 3, 5].map(Rack);
        let dice = &mut Dice::new(17);
        // The first tray of rack 1; the share of rack 3 is wrong in group 5.
        Correct::of(layout, &whole, Tray(F::WARY[1]), &helpers, dice).with_wrong(2, 5, dice)
    }

    fn with_layout(self, layout: Layout<F>) -> Correct<F> {
        Correct { layout, ..self }
    }

    fn refusal(&self) -> Option<Refusal> {
        self.run().err()
    }
}
