//! A layout's numbers, as the library gives them, and what the command says of them.

use crate::code::conditions::{conditions, Verdict};
use crate::code::field::Field;
use crate::failure::Failure;
use crate::terminal::words::count;
use gesarumbo::{Layout, Rack, Tray};
use std::ops::Deref;

/// The numbers of an admissible layout of a field.
#[derive(Clone, Copy, Debug)]
pub struct Numbers {
    pub field: Field,
    numbers: gesarumbo::Numbers,
}

impl Deref for Numbers {
    type Target = gesarumbo::Numbers;

    fn deref(&self) -> &gesarumbo::Numbers {
        &self.numbers
    }
}

impl Numbers {
    /// The numbers of a layout in a field. One that is not admissible is refused, with the first
    /// condition that fails in words.
    pub fn of(layout: Layout, field: Field) -> Result<Numbers, Failure> {
        let failing = conditions(layout, field)
            .into_iter()
            .find(|condition| condition.verdict == Verdict::Fails);
        let name = field.named(layout);
        match (field.numbers(layout), failing) {
            (Ok(numbers), None) => Ok(Numbers { field, numbers }),
            (Err(refusal), Some(condition)) => Err(Failure::Refused {
                about: format!("layout {name}: {condition}"),
                refusal,
            }),
            _ => Err(Failure::Internal(format!(
                "layout {name}: the command and the library disagree"
            ))),
        }
    }

    /// The layout in words.
    pub fn name(&self) -> String {
        self.field.named(self.layout)
    }

    /// (k − u + 1)·L: symbols of a plain recovery that come from other racks, where the lost
    /// tray's own rack gives its u − 1 other trays.
    pub fn plain_crossing(&self) -> usize {
        (self.dimension + 1 - self.size) * self.layers
    }

    /// How many racks may be lost whole, in words: any r trays may be, of whichever racks.
    pub fn lost_racks(&self) -> String {
        let racks = count(self.checks / self.size, "whole rack");
        match self.checks % self.size {
            0 => format!("any {racks} of {}", self.racks),
            more => format!(
                "any {racks} of {}, and any {} more",
                self.racks,
                count(more, "tray")
            ),
        }
    }

    /// Every tray's number.
    pub fn all_trays(self) -> impl Iterator<Item = Tray> {
        (0..self.layout.racks * self.layout.size).map(Tray::new)
    }

    /// The rack a tray stands in.
    pub fn rack_of(&self, tray: Tray) -> Rack {
        Rack::new(tray.number() / self.layout.size)
    }

    /// The rack that the lost trays of a repair stand in, of which there is one at least.
    pub fn host_of(&self, lost: &[Tray]) -> Rack {
        self.rack_of(lost[0])
    }

    /// The first d racks but that of the first lost tray.
    pub fn first_helpers(&self, lost: &[Tray]) -> Vec<Rack> {
        let host = lost.first().map(|tray| self.rack_of(*tray));
        let racks = (0..self.layout.racks).map(Rack::new);
        let racks = racks.filter(|rack| Some(*rack) != host);
        racks.take(self.helpers).collect()
    }

    /// The trays of a rack; none for a rack outside the layout.
    pub fn trays_of(self, rack: Rack) -> impl Iterator<Item = Tray> {
        self.all_trays()
            .filter(move |tray| self.rack_of(*tray) == rack)
    }
}
