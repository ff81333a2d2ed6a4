//! Reading while repairing.

use super::{shorten, Case, Fault, Put, RepairMany};
use crate::common::{codeword, symbol, Dice, Tried};
use reference::*;

#[derive(Clone)]
pub struct ReadPart<F: Field> {
    pub layout: Layout<F>,
    pub codeword: Vec<F::Symbol>,
    pub spare: Vec<F::Symbol>,
    pub lost: Tray,
    pub groups: u64,
    pub asked: Asked,
}

impl<F: Tried> ReadPart<F> {
    pub fn run(&self) -> Result<Part<F::Symbol>, Refusal> {
        read_part(
            self.layout,
            &self.codeword,
            &self.spare,
            self.lost,
            self.groups,
            self.asked,
        )
    }

    /// A store whose lost tray holds anything, and a spare that the repair of
    /// so many groups has written.
    pub fn during_repair(
        layout: Layout<F>,
        lost: Tray,
        groups: u64,
        dice: &mut Dice,
    ) -> ReadPart<F> {
        let numbers = layout.numbers().unwrap();
        let mut store = codeword(layout, u64::from(dice.byte()));
        let host = lost.0 as usize / numbers.size;
        let helpers: Vec<Rack> = (0..numbers.racks as u32)
            .filter(|&rack| rack as usize != host)
            .take(numbers.helpers)
            .map(Rack)
            .collect();
        let mut piece = RepairMany::whole(layout, &store, &[lost], &helpers, dice);
        piece.budget = groups;
        store[lost.0 as usize * numbers.layers..][..numbers.layers]
            .copy_from_slice(&dice.symbols::<F>(numbers.layers));
        ReadPart {
            layout,
            codeword: store,
            spare: piece.run().unwrap().spare,
            lost,
            groups,
            asked: Asked {
                tray: lost,
                first: 0,
                end: 0,
            },
        }
    }

    /// Whether a layer of the lost tray is in a done group.
    pub fn is_ready(&self, layer: usize) -> bool {
        let numbers = self.layout.numbers().unwrap();
        let host = self.lost.0 as usize / numbers.size;
        (numbers.group(host, layer) as u64) < self.groups
    }

    pub fn asking(&self, tray: u32, first: usize, end: usize) -> ReadPart<F> {
        let asked = Asked {
            tray: Tray(tray),
            first: first as u32,
            end: end as u32,
        };
        ReadPart {
            asked,
            ..self.clone()
        }
    }
}

/// The first tray behind those of the layout.
fn no_tray<F: Tried>() -> Tray {
    let [racks, size, ..] = F::SMALL_SHAPE;
    Tray(racks * size)
}

impl<F: Tried> Case for ReadPart<F> {
    type Field = F;

    const FAULTS: &'static [Fault<ReadPart<F>>] = &[
        (Refusal::Layout, |case| case.layout = F::INADMISSIBLE.into()),
        (Refusal::Length, |case| case.codeword.push(F::ONE)),
        (Refusal::Length, |case| shorten(&mut case.codeword)),
        (Refusal::Length, |case| case.spare.push(symbol::<F>(2))),
        (Refusal::Length, |case| case.spare.clear()),
        (Refusal::Number, |case| case.lost = no_tray::<F>()),
        (Refusal::Number, |case| case.asked.tray = no_tray::<F>()),
        (Refusal::Number, |case| {
            case.lost = Tray(u32::MAX);
            case.asked.tray = case.lost;
        }),
        (Refusal::Number, |case| case.asked.end = 17),
        (Refusal::Number, |case| {
            case.asked.first = 17;
            case.asked.end = 17;
        }),
        (Refusal::Number, |case| case.asked.end = u32::MAX),
        (Refusal::Number, |case| {
            case.asked.end = case.asked.first - 1
        }),
        (Refusal::Number, |case| case.groups = 9),
        (Refusal::Number, |case| case.groups = u64::from(u32::MAX)),
        (Refusal::NotRepaired, |case| case.groups = 0),
        (Refusal::NotRepaired, |case| case.asked.end = 16),
    ];

    const UNSEEN: &'static [Put<ReadPart<F>>] = &[
        |case, number| case.codeword.fill(number),
        |case, number| case.spare.fill(number),
    ];

    fn sound() -> ReadPart<F> {
        // For host 1 and s = 2 the first four groups are layers 0 .. 7.
        let layout = F::SMALL_SHAPE.into();
        let case = ReadPart::during_repair(layout, Tray(4), 4, &mut Dice::new(71));
        case.asking(4, 2, 8)
    }

    fn with_layout(self, layout: Layout<F>) -> ReadPart<F> {
        ReadPart { layout, ..self }
    }

    fn refusal(&self) -> Option<Refusal> {
        self.run().err()
    }
}
