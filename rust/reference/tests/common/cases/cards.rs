//! The calls of repair cards.

use super::{put_last, shorten, Case, Fault, Put, Repair};
use crate::common::{Dice, Tried};
use reference::*;

/// What cards are for: a lost tray, helpers and a group.
#[derive(Clone)]
pub struct CardPrint<F: Field> {
    pub layout: Layout<F>,
    pub lost: Tray,
    pub helpers: Vec<Rack>,
    pub group: u64,
    /// The places lent.
    pub card: Vec<F::Symbol>,
}

impl<F: Tried> CardPrint<F> {
    pub fn run(&self) -> Result<Vec<F::Symbol>, Refusal> {
        card(
            self.layout,
            self.lost,
            &self.helpers,
            self.group,
            &self.card,
        )
    }

    /// For this lost tray and these helpers, over places that hold anything.
    pub fn of(
        layout: Layout<F>,
        lost: Tray,
        helpers: &[Rack],
        group: u64,
        dice: &mut Dice,
    ) -> CardPrint<F> {
        let numbers = layout.numbers().unwrap();
        CardPrint {
            layout,
            lost,
            helpers: helpers.to_vec(),
            group,
            card: dice.symbols::<F>(numbers.helpers * numbers.base),
        }
    }

    /// The same with the right card.
    pub fn printed(&self) -> CardTest<F> {
        let mut printed = self.clone();
        printed.card = self.run().unwrap();
        CardTest(printed)
    }
}

impl<F: Tried> Case for CardPrint<F> {
    type Field = F;

    const FAULTS: &'static [Fault<CardPrint<F>>] = &[
        (Refusal::Layout, |case| case.layout = F::INADMISSIBLE.into()),
        (Refusal::Layout, |case| case.layout = F::WARY.into()),
        (Refusal::Length, |case| shorten(&mut case.card)),
        (Refusal::Length, |case| case.card.push(F::ONE)),
        (Refusal::Number, |case| case.lost = Tray(5 * F::SHAPE[1])),
        (Refusal::Number, |case| case.helpers[1] = Rack(u32::MAX)),
        (Refusal::Number, |case| case.group = 16),
        (Refusal::Number, |case| case.group = 1 << 32),
        (Refusal::Order, |case| case.helpers[1] = case.helpers[0]),
        (Refusal::Order, |case| case.helpers.reverse()),
        (Refusal::Count, |case| shorten(&mut case.helpers)),
        (Refusal::Count, |case| {
            case.helpers = [0, 1, 2, 3, 4].map(Rack).to_vec()
        }),
        (Refusal::Host, |case| case.helpers[0] = Rack(1)),
    ];

    const UNSEEN: &'static [Put<CardPrint<F>>] = &[|case, number| case.card.fill(number)];

    fn sound() -> CardPrint<F> {
        let helpers = [0, 2, 4].map(Rack);
        let lost = Tray(F::SHAPE[1] + 1);
        CardPrint::of(F::SHAPE.into(), lost, &helpers, 11, &mut Dice::new(141))
    }

    fn with_layout(self, layout: Layout<F>) -> CardPrint<F> {
        CardPrint { layout, ..self }
    }

    fn refusal(&self) -> Option<Refusal> {
        self.run().err()
    }
}

/// The test of a card.
#[derive(Clone)]
pub struct CardTest<F: Field>(pub CardPrint<F>);

impl<F: Tried> CardTest<F> {
    pub fn run(&self) -> Result<(), Refusal> {
        let CardPrint {
            layout,
            lost,
            helpers,
            group,
            card,
        } = &self.0;
        card_test(*layout, *lost, helpers, card, *group)
    }
}

impl<F: Tried> Case for CardTest<F> {
    type Field = F;

    const FAULTS: &'static [Fault<CardTest<F>>] = &[
        (Refusal::Layout, |case| {
            case.0.layout = F::INADMISSIBLE.into()
        }),
        (Refusal::Layout, |case| case.0.layout = F::WARY.into()),
        (Refusal::Length, |case| shorten(&mut case.0.card)),
        (Refusal::Length, |case| case.0.card.push(F::ONE)),
        (Refusal::Number, |case| case.0.lost = Tray(5 * F::SHAPE[1])),
        (Refusal::Number, |case| case.0.helpers[1] = Rack(u32::MAX)),
        (Refusal::Number, |case| case.0.group = 16),
        (Refusal::Order, |case| case.0.helpers.reverse()),
        (Refusal::Count, |case| shorten(&mut case.0.helpers)),
        (Refusal::Host, |case| case.0.helpers[0] = Rack(1)),
        (Refusal::Card, |case| case.0.group = 10),
        (Refusal::Card, |case| {
            case.0.card[5] = F::add(case.0.card[5], F::ONE)
        }),
    ];

    const SEEN: &'static [Put<CardTest<F>>] = &[
        |case, number| case.0.card[0] = number,
        |case, number| put_last(&mut case.0.card, number),
    ];

    fn sound() -> CardTest<F> {
        CardPrint::sound().printed()
    }

    fn with_layout(self, layout: Layout<F>) -> CardTest<F> {
        CardTest(self.0.with_layout(layout))
    }

    fn refusal(&self) -> Option<Refusal> {
        self.run().err()
    }
}

/// The repair of one group by a card: all but the card and the group is that of a
/// repair.
#[derive(Clone)]
pub struct CardRepair<F: Field> {
    pub card: Vec<F::Symbol>,
    pub group: u64,
    pub of: Repair<F>,
}

impl<F: Tried> CardRepair<F> {
    pub fn run(&self) -> Result<Repaired<F::Symbol>, Refusal> {
        let of = &self.of.0;
        let given = Given {
            lost: of.lost[0],
            helpers: &of.helpers,
            shares: &of.shares,
            host: &of.host,
        };
        card_repair(of.layout, given, &self.card, &of.spare, self.group)
    }

    /// The repair of this group by the right card.
    pub fn right(of: Repair<F>, group: u64, dice: &mut Dice) -> CardRepair<F> {
        let (lost, helpers) = (of.0.lost[0], &of.0.helpers);
        let print = CardPrint::of(of.0.layout, lost, helpers, group, dice);
        CardRepair {
            card: print.run().unwrap(),
            group,
            of,
        }
    }

    /// The same piece by the plain repair.
    pub fn plain(&self) -> Repair<F> {
        let mut piece = self.of.clone();
        (piece.0.first, piece.0.budget) = (self.group, 1);
        piece
    }
}

impl<F: Tried> Case for CardRepair<F> {
    type Field = F;

    const FAULTS: &'static [Fault<CardRepair<F>>] = &[
        (Refusal::Layout, |case| {
            case.of.0.layout = F::INADMISSIBLE.into()
        }),
        (Refusal::Layout, |case| case.of.0.layout = F::WARY.into()),
        (Refusal::Length, |case| shorten(&mut case.card)),
        (Refusal::Length, |case| shorten(&mut case.of.0.shares)),
        (Refusal::Length, |case| case.of.0.host.push(F::ONE)),
        (Refusal::Length, |case| shorten(&mut case.of.0.spare)),
        (Refusal::Number, |case| {
            case.of.0.lost[0] = Tray(5 * F::SHAPE[1])
        }),
        (Refusal::Number, |case| {
            case.of.0.helpers[1] = Rack(u32::MAX)
        }),
        (Refusal::Number, |case| case.group = 16),
        (Refusal::Number, |case| case.group = u64::MAX),
        (Refusal::Order, |case| {
            case.of.0.helpers[1] = case.of.0.helpers[0]
        }),
        (Refusal::Count, |case| shorten(&mut case.of.0.helpers)),
        (Refusal::Count, |case| {
            case.of.0.set_helpers(&[0, 1, 2, 3, 4])
        }),
        (Refusal::Host, |case| case.of.0.helpers[0] = Rack(1)),
        (Refusal::Card, |case| case.card.swap(0, 1)),
    ];

    // For host 1 and s = 2 group 11 is layers 21 and 23.
    const SEEN: &'static [Put<CardRepair<F>>] = &[
        |case, number| case.card[0] = number,
        |case, number| put_last(&mut case.card, number),
        |case, number| case.of.0.shares[11] = number,
        |case, number| case.of.0.host[21] = number,
        |case, number| case.of.0.host[23] = number,
    ];
    const UNSEEN: &'static [Put<CardRepair<F>>] = &[
        |case, number| case.of.0.spare.fill(number),
        |case, number| case.of.0.shares[10] = number,
        |case, number| case.of.0.host[22] = number,
        |case, number| case.of.0.host[32..64].fill(number),
    ];

    fn sound() -> CardRepair<F> {
        CardRepair::right(Repair::sound(), 11, &mut Dice::new(142))
    }

    fn with_layout(mut self, layout: Layout<F>) -> CardRepair<F> {
        self.of.0.layout = layout;
        self
    }

    fn refusal(&self) -> Option<Refusal> {
        self.run().err()
    }

    fn looks(&self) -> bool {
        self.group < 16
    }
}
