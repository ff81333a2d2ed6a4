//! An admissible layout with its numbers, and parts of its codewords.

use crate::field::{in_field, numbers, symbols, Field, Symbol};
use crate::inputs::{Inputs, Value};
use crate::random::Random;
use reference::{Layout, Numbers};
use std::ops::Range;

#[derive(Clone, Copy, Debug)]
pub struct Cabinet {
    pub field: Field,
    /// B, u, k, d, E.
    pub layout: [u32; 5],
    pub numbers: Numbers,
}

impl Cabinet {
    /// The cabinet of a layout, none where it is not admissible in the field.
    pub fn new(field: Field, layout: [u32; 5]) -> Option<Cabinet> {
        let numbers = in_field!(field, Layout::<F>::from(layout).numbers()).ok()?;
        Some(Cabinet {
            field,
            layout,
            numbers,
        })
    }

    /// The cabinet of an admissible layout.
    pub fn named(field: Field, layout: [u32; 5]) -> Cabinet {
        Cabinet::new(field, layout).expect("an admissible layout")
    }

    /// Its number E.
    pub fn errors(&self) -> u32 {
        self.layout[4]
    }

    /// The inputs of a call over this layout: it, then the others.
    pub fn inputs(&self, others: impl IntoIterator<Item = Value>) -> Inputs {
        let layout = Value::Layout(self.layout);
        Inputs {
            field: self.field,
            values: std::iter::once(layout).chain(others).collect(),
        }
    }

    /// The length of a codeword.
    pub fn symbols(&self) -> usize {
        self.numbers.trays * self.numbers.layers
    }

    pub fn tray_numbers(&self) -> Vec<u32> {
        (0..self.numbers.trays as u32).collect()
    }

    /// The racks but one.
    pub fn other_racks(&self, host: u32) -> Vec<u32> {
        (0..self.numbers.racks as u32)
            .filter(|&rack| rack != host)
            .collect()
    }

    pub fn rack_of(&self, tray: u32) -> u32 {
        tray / self.layout[1]
    }

    pub fn trays_of(&self, rack: u32) -> Vec<u32> {
        let size = self.layout[1];
        (rack * size..(rack + 1) * size).collect()
    }

    /// A number of lost trays that one repair can do; with E = 1 that is one.
    pub fn lost_count(&self, random: &mut Random) -> usize {
        let most = match self.errors() {
            0 => self.numbers.most_lost(),
            _ => 1,
        };
        1 + random.below(most)
    }

    /// So many lost trays of some rack.
    pub fn lost(&self, random: &mut Random, count: usize) -> Vec<u32> {
        let rack = random.below(self.numbers.racks) as u32;
        random.some_of(count, self.trays_of(rack))
    }

    /// So many lost trays of a tray's rack, this one among them.
    pub fn lost_with(&self, random: &mut Random, tray: u32, count: usize) -> Vec<u32> {
        let mut others = self.trays_of(self.rack_of(tray));
        others.retain(|&other| other != tray);
        let mut lost = random.some_of(count - 1, others);
        lost.push(tray);
        lost.sort();
        lost
    }

    /// The codeword of random data, by the second program.
    pub fn codeword(&self, random: &mut Random) -> Vec<Symbol> {
        let data = random.symbols(self.field, self.numbers.dimension * self.numbers.layers);
        in_field!(self.field, {
            let lent = symbols::<F>(&vec![0; self.symbols()]);
            let stored = reference::store::<F>(self.layout.into(), &symbols::<F>(&data), &lent);
            numbers(&stored.expect("the lengths are right"))
        })
    }

    /// A tray's place in a codeword.
    pub fn tray(&self, tray: u32) -> Range<usize> {
        self.run_of_trays(tray, 1)
    }

    /// A rack's place in a codeword.
    pub fn rack(&self, rack: u32) -> Range<usize> {
        let size = self.layout[1];
        self.run_of_trays(rack * size, size)
    }

    fn run_of_trays(&self, first: u32, count: u32) -> Range<usize> {
        let layers = self.numbers.layers;
        first as usize * layers..(first + count) as usize * layers
    }
}
