//! How far a repair in groups is: which groups are next, and what has crossed.

use crate::files::shape::Shape;
use crate::terminal::progress::Run;
use crate::terminal::screen::Screen;
use gesarumbo::Repaired;
use std::ops::Range;

/// A run of groups, counted over all stripes.
pub struct Meter {
    run: Run,
    /// Groups of a stripe, and stripes.
    groups: u64,
    stripes: u64,
    /// The stripe under repair.
    stripe: u64,
    /// Symbols of a group that cross.
    of_group: u64,
    crossed: u64,
}

impl Meter {
    /// A repair of so many trays, with a run of groups to be done, counted over all stripes.
    pub fn new(cabinet: &Shape, lost: usize, run: Range<u64>) -> Meter {
        let of_group = (lost * cabinet.numbers.helpers) as u64;
        Meter {
            groups: cabinet.numbers.groups as u64,
            stripes: cabinet.description.stripes.into(),
            crossed: run.start * of_group,
            run: Run::new(cabinet, "group", cabinet.numbers.groups, run),
            stripe: 0,
            of_group,
        }
    }

    /// Goes to a stripe, and gives its next group.
    pub fn enter(&mut self, stripe: u32) -> u64 {
        self.stripe = stripe.into();
        self.group()
    }

    /// The next group of the stripe under repair, which may be past its last.
    pub fn group(&self) -> u64 {
        self.run.at() - self.stripe * self.groups
    }

    /// Whether all groups of the stripe under repair are done.
    pub fn is_past(&self) -> bool {
        self.group() >= self.groups
    }

    /// Whether all groups of the run are done.
    pub fn is_over(&self) -> bool {
        self.run.is_over()
    }

    /// How many groups may be done in one call.
    pub fn budget(&self) -> u64 {
        self.run.budget()
    }

    /// Counts what a call has done, and prints a line if it is time for one.
    pub fn advance(&mut self, done: &Repaired, screen: &mut Screen) {
        let later = (self.stripes - self.stripe - 1) * self.groups * self.of_group;
        self.crossed += done.crossed;
        let (crossed, remaining) = (self.crossed, done.remaining + later);
        let words = || {
            let wide = (crossed + remaining).to_string().len();
            format!("{crossed:>wide$} crossed, {remaining:>wide$} to come")
        };
        self.run.advance(done.groups, words, screen);
    }
}
