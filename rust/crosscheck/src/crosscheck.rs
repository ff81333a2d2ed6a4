//! The whole comparison: its parts in their order.

use crate::draws::DRAWS;
use crate::run::Run;
use crate::source::Source;
use crate::sweeps::SWEEPS;
use crate::vectors;
use std::path::Path;
use std::time::Instant;

/// How much is compared.
#[derive(Clone, Copy, Debug, PartialEq, Eq)]
pub enum Effort {
    /// A few seconds' worth.
    Short,
    /// The gate's.
    Gate,
}

pub struct Crosscheck {
    pub source: Source,
    pub run: Run,
}

/// In a long run, so many cases stand between two words of progress.
const PROGRESS: u64 = 50_000;

impl Crosscheck {
    pub fn new(seed: u64) -> Crosscheck {
        Crosscheck {
            source: Source::new(seed),
            run: Run::default(),
        }
    }

    /// The sweeps, a fixed number of random cases, and the vectors.
    pub fn bounded(&mut self, vectors: &Path, effort: Effort) {
        for sweep in SWEEPS {
            let step = if effort == Effort::Gate {
                1
            } else {
                sweep.short_step
            };
            let items = (0..(sweep.items)(&self.source)).step_by(step);
            self.part(sweep.name, |all| {
                items.for_each(|item| (sweep.item)(all, item))
            });
        }
        for draw in DRAWS {
            let cases = if effort == Effort::Gate {
                draw.gate
            } else {
                draw.short
            };
            self.part(draw.name, |all| (0..cases).for_each(|_| (draw.case)(all)));
        }
        if effort == Effort::Gate {
            self.run.require_grounds();
        }
        self.part("vectors", |all| vectors::replay(&mut all.run, vectors));
    }

    /// So many random cases, the kinds in the gate's proportion.
    pub fn long(&mut self, cases: u64) {
        let start = Instant::now();
        let whole = DRAWS.iter().map(|draw| draw.gate).sum();
        for case in 1..=cases {
            let mut at = self.source.random.below(whole);
            let draw = DRAWS.iter().find(|draw| {
                let chosen = at < draw.gate;
                at = at.saturating_sub(draw.gate);
                chosen
            });
            (draw.expect("the number is below the sum").case)(self);
            if case % PROGRESS == 0 {
                let seconds = start.elapsed().as_secs();
                println!("{case} cases, {}, {seconds} s", self.run.summary());
            }
        }
    }

    /// Runs a part and says what it came to.
    fn part(&mut self, name: &str, part: impl FnOnce(&mut Crosscheck)) {
        let (start, before) = (Instant::now(), self.run.compared);
        part(self);
        let compared = self.run.compared - before;
        println!(
            "{name}: {compared} calls, {:.1} s",
            start.elapsed().as_secs_f64()
        );
    }

    /// The counts, and the one sentence that sums them up. True where nothing
    /// differed.
    pub fn report(&self) -> bool {
        print!("{}", self.run.table());
        println!("crosscheck: {}", self.run.summary());
        self.run.differing == 0
    }
}
