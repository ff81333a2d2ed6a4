//! Where cases come from: the random numbers and the layouts.

use crate::cabinet::Cabinet;
use crate::calls::{sixteen, Call};
use crate::field::{Field, FIELDS};
use crate::inputs::Inputs;
use crate::random::Random;
use crate::spoil::spoil;

/// Codewords up to this length are small.
const SMALL: usize = 1024;
/// With E = 1 and racks of one tray, up to this length, so that s is not always 2.
const SMALL_OF_ONES: usize = 4400;
/// One random case in so many is on a layout that isn't small.
const LARGE_ONE_IN: usize = 300;

/// The numbers E that layouts are drawn with.
pub const EITHER: &[u32] = &[0, 1];
/// One case in so many is with either E, whichever the call is for.
const ANY_ERRORS_ONE_IN: usize = 12;

pub struct Source {
    pub random: Random,
    /// The layouts of each field with each E.
    pub layouts: Vec<Layouts>,
}

/// The admissible layouts of a field with the same E.
pub struct Layouts {
    pub field: Field,
    pub errors: u32,
    /// Small layouts with one layer (s = 1).
    pub flat: Vec<Cabinet>,
    /// Small layouts with several layers.
    pub small: Vec<Cabinet>,
    /// All others.
    pub large: Vec<Cabinet>,
}

impl Source {
    pub fn new(seed: u64) -> Source {
        let of_field = |field| {
            EITHER
                .iter()
                .map(move |&errors| Layouts::new(field, errors))
        };
        Source {
            random: Random::new(seed),
            layouts: FIELDS.into_iter().flat_map(of_field).collect(),
        }
    }

    /// The small layouts of both fields with this E: all with several layers, and of
    /// those with one layer one in so many.
    pub fn small(&self, errors: u32, flat_step: usize) -> impl Iterator<Item = Cabinet> + '_ {
        self.with_errors(errors).flat_map(move |layouts| {
            let flat = layouts.flat.iter().step_by(flat_step);
            flat.chain(&layouts.small).copied()
        })
    }

    /// Of the large layouts of both fields with this E, one in so many.
    pub fn large(&self, errors: u32, step: usize) -> impl Iterator<Item = Cabinet> + '_ {
        let layouts = self.with_errors(errors);
        layouts.flat_map(move |layouts| layouts.large.iter().step_by(step).copied())
    }

    fn with_errors(&self, errors: u32) -> impl Iterator<Item = &Layouts> {
        self.layouts.iter().filter(move |of| of.errors == errors)
    }

    /// Random inputs of a call over any layout, good or spoilt in up to three places.
    pub fn inputs(&mut self, field: Field, call: &Call) -> Inputs {
        let any = self.random.one_in(ANY_ERRORS_ONE_IN);
        let errors = if any { EITHER } else { call.errors };
        let cabinet = match call.has_layout() {
            true => self.cabinet_of(field, errors),
            false => sixteen::NUMBERS,
        };
        let mut inputs = (call.example)(self, &cabinet);
        let times = self.random.pick(&[0, 0, 0, 0, 1, 1, 1, 2, 2, 3]);
        spoil(self, &cabinet, &mut inputs, times);
        inputs
    }

    /// A random layout of either field with one of these E.
    pub fn cabinet(&mut self, errors: &[u32]) -> Cabinet {
        let field = self.random.pick(&FIELDS);
        self.cabinet_of(field, errors)
    }

    /// A random layout: mostly small, and most of these with several layers.
    pub fn cabinet_of(&mut self, field: Field, errors: &[u32]) -> Cabinet {
        let errors = self.random.pick(errors);
        let mut of_field = self.layouts.iter().filter(|of| of.field == field);
        let layouts = of_field.find(|of| of.errors == errors);
        let layouts = layouts.expect("both fields have layouts with each E");
        let pool = if self.random.one_in(LARGE_ONE_IN) {
            &layouts.large
        } else if self.random.one_in(3) {
            &layouts.flat
        } else {
            &layouts.small
        };
        self.random.pick(pool)
    }
}

impl Layouts {
    fn new(field: Field, errors: u32) -> Layouts {
        let (small, large): (Vec<Cabinet>, Vec<Cabinet>) =
            admissible(field, errors).into_iter().partition(is_small);
        let (flat, small) = small
            .into_iter()
            .partition(|cabinet| cabinet.numbers.layers == 1);
        Layouts {
            field,
            errors,
            flat,
            small,
            large,
        }
    }
}

fn is_small(cabinet: &Cabinet) -> bool {
    let most = match (cabinet.errors(), cabinet.numbers.size) {
        (1, 1) => SMALL_OF_ONES,
        _ => SMALL,
    };
    cabinet.symbols() <= most
}

/// Every admissible layout of a field with this E, by the second program.
fn admissible(field: Field, errors: u32) -> Vec<Cabinet> {
    let most = reference::layout::MOST_TRAYS as u32;
    let mut found = vec![];
    for size in field.rack_sizes() {
        for racks in 0..=most / size {
            for dimension in 0..=most {
                let of_helpers =
                    |helpers| Cabinet::new(field, [racks, size, dimension, helpers, errors]);
                found.extend((0..=racks).filter_map(of_helpers));
            }
        }
    }
    found
}
