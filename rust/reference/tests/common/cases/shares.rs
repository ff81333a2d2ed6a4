//! The share calls.

use super::{put_last, shorten, Case, Fault, Put};
use crate::common::{symbol, tray_of, Dice, Tried};
use reference::*;

#[derive(Clone)]
pub struct ShareAdd<F: Field> {
    pub layout: Layout<F>,
    pub host: Rack,
    pub tray: Tray,
    pub symbols: Vec<F::Symbol>,
    pub share: Vec<F::Symbol>,
}

impl<F: Field> ShareAdd<F> {
    pub fn run(&self) -> Result<Vec<F::Symbol>, Refusal> {
        share_add(
            self.layout,
            self.host,
            self.tray,
            &self.symbols,
            &self.share,
        )
    }
}

/// The first tray behind those of the layout.
fn no_tray<F: Tried>() -> Tray {
    let [racks, size, ..] = F::SHAPE;
    Tray(racks * size)
}

impl<F: Tried> Case for ShareAdd<F> {
    type Field = F;

    const FAULTS: &'static [Fault<ShareAdd<F>>] = &[
        (Refusal::Layout, |case| case.layout = F::INADMISSIBLE.into()),
        (Refusal::Length, |case| case.symbols.push(F::ONE)),
        (Refusal::Length, |case| case.symbols.clear()),
        (Refusal::Length, |case| case.share.push(symbol::<F>(2))),
        (Refusal::Length, |case| shorten(&mut case.share)),
        (Refusal::Number, |case| case.host = Rack(5)),
        (Refusal::Number, |case| case.host = Rack(u32::MAX)),
        (Refusal::Number, |case| case.tray = no_tray::<F>()),
        (Refusal::Number, |case| case.tray = Tray(u32::MAX)),
        (Refusal::Host, |case| {
            case.host = Rack(case.tray.0 / case.layout.size)
        }),
    ];

    const SEEN: &'static [Put<ShareAdd<F>>] = &[
        |case, number| put_last(&mut case.symbols, number),
        |case, number| put_last(&mut case.share, number),
    ];

    fn sound() -> ShareAdd<F> {
        let mut dice = Dice::new(81);
        ShareAdd {
            layout: F::SHAPE.into(),
            host: Rack(1),
            tray: Tray(8),
            symbols: dice.symbols::<F>(32),
            share: dice.symbols::<F>(16),
        }
    }

    fn with_layout(self, layout: Layout<F>) -> ShareAdd<F> {
        ShareAdd { layout, ..self }
    }

    fn refusal(&self) -> Option<Refusal> {
        self.run().err()
    }
}

#[derive(Clone)]
pub struct ShareAddMany<F: Field> {
    pub lost_count: u32,
    pub one: ShareAdd<F>,
}

impl<F: Field> ShareAddMany<F> {
    pub fn run(&self) -> Result<Vec<F::Symbol>, Refusal> {
        let one = &self.one;
        share_add_many(
            one.layout,
            self.lost_count,
            one.host,
            one.tray,
            &one.symbols,
            &one.share,
        )
    }

    /// So many lost trays, with a buffer that fits.
    fn set_count(&mut self, lost_count: u32) {
        self.lost_count = lost_count;
        let length = 16 * lost_count as usize;
        self.one.share.resize(length, symbol::<F>(3));
    }
}

impl<F: Tried> Case for ShareAddMany<F> {
    type Field = F;

    const FAULTS: &'static [Fault<ShareAddMany<F>>] = &[
        (Refusal::Layout, |case| {
            case.one.layout = F::INADMISSIBLE.into()
        }),
        (Refusal::Length, |case| case.one.symbols.push(F::ONE)),
        (Refusal::Length, |case| case.one.share.push(symbol::<F>(2))),
        (Refusal::Number, |case| case.one.host = Rack(5)),
        (Refusal::Number, |case| case.one.tray = no_tray::<F>()),
        (Refusal::LostCount, |case| case.set_count(3)),
        (Refusal::LostCount, |case| case.set_count(0)),
        (Refusal::Host, |case| case.one.host = Rack(2)),
    ];

    const SEEN: &'static [Put<ShareAddMany<F>>] = &[
        |case, number| put_last(&mut case.one.symbols, number),
        |case, number| put_last(&mut case.one.share, number),
    ];

    fn sound() -> ShareAddMany<F> {
        let mut case = ShareAddMany {
            lost_count: 1,
            one: ShareAdd::sound(),
        };
        case.set_count(2);
        case
    }

    fn with_layout(mut self, layout: Layout<F>) -> ShareAddMany<F> {
        self.one.layout = layout;
        self
    }

    fn refusal(&self) -> Option<Refusal> {
        self.run().err()
    }

    fn looks(&self) -> bool {
        self.lost_count != 0
    }
}

#[derive(Clone)]
pub struct ShareMany<F: Field> {
    pub layout: Layout<F>,
    pub lost_count: u32,
    pub host: Rack,
    pub helper: Rack,
    pub rack: Vec<F::Symbol>,
    pub share: Vec<F::Symbol>,
}

impl<F: Field> ShareMany<F> {
    pub fn run(&self) -> Result<Vec<F::Symbol>, Refusal> {
        share_many(
            self.layout,
            self.lost_count,
            self.host,
            self.helper,
            &self.rack,
            &self.share,
        )
    }

    /// So many lost trays, with a buffer that fits.
    fn set_count(&mut self, lost_count: u32) {
        self.lost_count = lost_count;
        let length = 16 * lost_count as usize;
        self.share.resize(length, symbol::<F>(3));
    }
}

impl<F: Tried> Case for ShareMany<F> {
    type Field = F;

    const FAULTS: &'static [Fault<ShareMany<F>>] = &[
        (Refusal::Layout, |case| case.layout = F::INADMISSIBLE.into()),
        (Refusal::Length, |case| case.rack.push(F::ONE)),
        (Refusal::Length, |case| case.share.push(symbol::<F>(2))),
        (Refusal::Number, |case| case.host = Rack(5)),
        (Refusal::Number, |case| case.helper = Rack(u32::MAX)),
        (Refusal::LostCount, |case| case.set_count(3)),
        (Refusal::LostCount, |case| case.set_count(0)),
        (Refusal::Host, |case| case.host = case.helper),
    ];

    const SEEN: &'static [Put<ShareMany<F>>] = &[
        |case, number| case.rack[0] = number,
        |case, number| put_last(&mut case.rack, number),
    ];
    const UNSEEN: &'static [Put<ShareMany<F>>] = &[|case, number| case.share.fill(number)];

    fn sound() -> ShareMany<F> {
        let mut dice = Dice::new(11);
        let size = F::SHAPE[1] as usize;
        ShareMany {
            layout: F::SHAPE.into(),
            lost_count: 2,
            host: Rack(1),
            helper: Rack(4),
            rack: dice.symbols::<F>(32 * size),
            share: dice.symbols::<F>(32),
        }
    }

    fn with_layout(self, layout: Layout<F>) -> ShareMany<F> {
        ShareMany { layout, ..self }
    }

    fn refusal(&self) -> Option<Refusal> {
        self.run().err()
    }

    fn looks(&self) -> bool {
        self.lost_count != 0
    }
}

/// The call for one lost tray: the same but for the count, which is 1.
#[derive(Clone)]
pub struct Share<F: Field>(pub ShareMany<F>);

impl<F: Field> Share<F> {
    pub fn run(&self) -> Result<Vec<F::Symbol>, Refusal> {
        let given = &self.0;
        share(
            given.layout,
            given.host,
            given.helper,
            &given.rack,
            &given.share,
        )
    }
}

impl<F: Tried> Case for Share<F> {
    type Field = F;

    const FAULTS: &'static [Fault<Share<F>>] = &[
        (Refusal::Layout, |case| {
            case.0.layout = F::INADMISSIBLE.into()
        }),
        (Refusal::Length, |case| shorten(&mut case.0.rack)),
        (Refusal::Length, |case| case.0.share.push(symbol::<F>(2))),
        (Refusal::Number, |case| case.0.host = Rack(5)),
        (Refusal::Number, |case| case.0.helper = Rack(u32::MAX)),
        (Refusal::Host, |case| case.0.host = case.0.helper),
    ];

    const SEEN: &'static [Put<Share<F>>] = &[
        |case, number| case.0.rack[0] = number,
        |case, number| put_last(&mut case.0.rack, number),
    ];
    const UNSEEN: &'static [Put<Share<F>>] = &[|case, number| case.0.share.fill(number)];

    fn sound() -> Share<F> {
        let mut given = ShareMany::sound();
        given.set_count(1);
        Share(given)
    }

    fn with_layout(self, layout: Layout<F>) -> Share<F> {
        Share(self.0.with_layout(layout))
    }

    fn refusal(&self) -> Option<Refusal> {
        self.run().err()
    }
}

/// A tray's part as it is fed to the share of its rack.
pub fn fed<F: Field>(
    layout: Layout<F>,
    codeword: &[F::Symbol],
    host: Rack,
    tray: Tray,
    share: &[F::Symbol],
) -> ShareAdd<F> {
    let numbers = layout.numbers().unwrap();
    ShareAdd {
        layout,
        host,
        tray,
        symbols: tray_of(&numbers, codeword, tray),
        share: share.to_vec(),
    }
}
