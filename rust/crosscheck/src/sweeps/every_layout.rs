//! The layout call of both fields on every layout in a box that holds all
//! admissible ones, with E = 0 and with E = 1; and on each of these with an E that
//! no layout has.

use super::Sweep;
use crate::calls::measure;
use crate::crosscheck::Crosscheck;
use crate::field::FIELDS;
use crate::inputs::{Inputs, Value};
use crate::run::Run;

/// An item is a number of racks.
pub const SWEEP: Sweep = Sweep {
    name: "every layout",
    items: |_| RACKS,
    short_step: 25,
    item,
};

const RACKS: usize = 62;
const SIZES: u32 = 19;
const DIMENSIONS: u32 = 62;
const HELPERS: u32 = 62;

fn item(all: &mut Crosscheck, racks: usize) {
    for size in 0..SIZES {
        for dimension in 0..DIMENSIONS {
            for helpers in 0..HELPERS {
                compare(&mut all.run, [racks as u32, size, dimension, helpers]);
            }
        }
    }
}

/// Numbers E that no layout has, some of them 0 or 1 in their low bits.
const OTHERS: [u32; 5] = [2, 3, 256, 257, 1 << 31];

fn compare(run: &mut Run, [racks, size, dimension, helpers]: [u32; 4]) {
    for field in FIELDS {
        let mut admitted = |errors| {
            let values = vec![Value::Layout([racks, size, dimension, helpers, errors])];
            run.compare(&measure::CALL, &Inputs { field, values })
                .refusal
                == 0
        };
        let [plain, wary] = [0, 1].map(&mut admitted);
        if plain || wary {
            let any = OTHERS.map(admitted).contains(&true);
            run.claim(!any, || {
                format!("{racks},{size},{dimension},{helpers} with a large E")
            });
        }
    }
}
