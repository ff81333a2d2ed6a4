//! What a scrub has found so far: the bad layers of a cabinet, counted, and a cell for each layer or
//! for some stripes, which says whether one is bad.

use crate::files::shape::Shape;
use crate::terminal::json::Json;
use crate::terminal::screen::Screen;
use crate::terminal::words::{count, grouped};
use std::ops::Range;

/// No more cells are kept: those of the layers of one stripe are never more.
const MOST_CELLS: u64 = 4096;

/// What is known of a cell, or of several together.
#[derive(Clone, Copy, PartialEq, Eq)]
pub enum State {
    /// All layers have been looked at, and none is bad.
    Sound,
    /// One is bad, or more.
    Bad,
    /// Not all have been looked at, and none of those that have is bad.
    Unseen,
}

impl State {
    pub const ALL: [State; 3] = [State::Sound, State::Bad, State::Unseen];

    pub fn words(self) -> &'static str {
        match self {
            State::Sound => "sound",
            State::Bad => "bad",
            State::Unseen => "not looked at yet",
        }
    }
}

/// All layers of a cabinet.
#[derive(PartialEq, Eq, Debug)]
pub struct Findings {
    stripes: u64,
    /// Layers of a stripe.
    layers: u64,
    /// Layers looked at, of all stripes together.
    pub at: u64,
    /// How many of them are bad.
    pub bad: u64,
    /// The first of these: its stripe, and the layer there.
    first: (u32, u32),
    /// The cells with a bad layer, rising.
    cells: Vec<u64>,
}

impl Findings {
    /// Nothing is looked at.
    pub fn new(cabinet: &Shape) -> Findings {
        Findings {
            stripes: cabinet.description.stripes.into(),
            layers: cabinet.numbers.layers as u64,
            at: 0,
            bad: 0,
            first: (0, 0),
            cells: Vec::new(),
        }
    }

    /// Counts a bad layer of the stripe under test.
    pub fn add(&mut self, stripe: u32, layer: u32) {
        if self.bad == 0 {
            self.first = (stripe, layer);
        }
        self.bad += 1;
        let cell = self.cell(u64::from(stripe) * self.layers + u64::from(layer));
        if self.cells.last() != Some(&cell) {
            self.cells.push(cell);
        }
    }

    /// What the cells are of: the layers of one stripe, or stripes.
    pub fn thing(&self) -> &'static str {
        match self.stripes {
            1 => "layer",
            _ => "stripe",
        }
    }

    /// How many of these there are.
    pub fn things(&self) -> u64 {
        match self.stripes {
            1 => self.layers,
            stripes => stripes,
        }
    }

    /// How many of them are in a cell.
    pub fn in_cell(&self) -> u64 {
        self.things().div_ceil(MOST_CELLS)
    }

    /// How many cells there are.
    pub fn count(&self) -> u64 {
        self.things().div_ceil(self.in_cell())
    }

    /// Layers of all stripes in a cell.
    fn layers_in_cell(&self) -> u64 {
        match self.stripes {
            1 => self.in_cell(),
            _ => self.in_cell() * self.layers,
        }
    }

    /// The cell of a layer, counted over all stripes.
    fn cell(&self, layer: u64) -> u64 {
        layer / self.layers_in_cell()
    }

    /// What is known of these cells together.
    pub fn state(&self, cells: Range<u64>) -> State {
        let seen = self.at >= (cells.end * self.layers_in_cell()).min(self.stripes * self.layers);
        match self.cells.iter().any(|cell| cells.contains(cell)) {
            true => State::Bad,
            false if seen => State::Sound,
            false => State::Unseen,
        }
    }

    /// The runs of layers or stripes that are bad, or have a bad one among them.
    pub fn bad_runs(&self) -> Vec<Range<u64>> {
        let (size, things) = (self.in_cell(), self.things());
        let runs = self.cells.chunk_by(|one, next| one + 1 == *next);
        runs.map(|run| run[0] * size..things.min((run[run.len() - 1] + 1) * size))
            .collect()
    }

    pub fn is_sound(&self) -> bool {
        self.bad == 0
    }

    /// How many layers are bad, and which is the first, in words.
    pub fn bad_words(&self) -> String {
        match self.bad {
            0 => "none bad".to_string(),
            bad => format!("{bad} bad, the first is {}", self.first_words("")),
        }
    }

    /// What is bad of all layers, in words.
    pub fn conclusion(&self) -> String {
        let bad = count(self.bad as usize, "layer");
        let (layers, first) = (self.layer_count(), self.first_words("layer "));
        format!("bad: {bad} of {layers} broken, {first} is the first")
    }

    fn first_words(&self, head: &str) -> String {
        let (stripe, layer) = self.first;
        match self.stripes {
            1 => format!("{head}{layer}"),
            _ => format!("layer {layer} of stripe {stripe}"),
        }
    }

    /// How many layers there are in all stripes.
    pub fn layer_count(&self) -> String {
        grouped((self.stripes * self.layers) as usize)
    }

    /// How far the scrub is and what it has found, in words.
    pub fn words(&self) -> String {
        let (at, layers) = (grouped(self.at as usize), self.layer_count());
        format!("{at} of {layers} layers looked at: {}", self.bad_words())
    }

    /// The findings as a report has them.
    pub fn report(&self, screen: &mut Screen) {
        let (stripe, layer) = self.first;
        let first = Json::object([("stripe", stripe.into()), ("layer", layer.into())]);
        screen.fact("layers", self.stripes * self.layers);
        screen.fact("looked_at", self.at);
        screen.fact("bad", self.bad);
        screen.fact("first_bad", Some(first).filter(|_| self.bad > 0));
    }

    /// The findings as a checkpoint has them.
    pub fn text(&self) -> String {
        let cells: String = self.cells.iter().map(|cell| format!(" {cell}")).collect();
        let (bad, (stripe, layer)) = (self.bad, self.first);
        format!("bad {bad} first {stripe} {layer}\ncells{cells}\n")
    }

    /// The findings of a checkpoint at which so many layers have been looked at, if they agree with
    /// one another.
    pub fn parse(cabinet: &Shape, at: u64, rest: &[u8]) -> Option<Findings> {
        let text = str::from_utf8(rest).ok()?.strip_suffix('\n')?;
        let (counts, cells) = text.split_once("\ncells")?;
        let words: Vec<&str> = counts.split(' ').collect();
        let ["bad", bad, "first", stripe, layer] = words[..] else {
            return None;
        };
        let mut cells = cells.split(' ');
        let found = Findings {
            at,
            bad: bad.parse().ok()?,
            first: (stripe.parse().ok()?, layer.parse().ok()?),
            cells: match cells.next()? {
                "" => cells.map(|cell| cell.parse().ok()).collect::<Option<_>>()?,
                _ => return None,
            },
            ..Findings::new(cabinet)
        };
        Some(found).filter(Findings::agree)
    }

    /// Whether counts, first layer and cells can be those of the layers looked at.
    fn agree(&self) -> bool {
        let (stripe, layer) = (u64::from(self.first.0), u64::from(self.first.1));
        let first = stripe * self.layers + layer;
        let ends = match (self.cells.first(), self.cells.last()) {
            (Some(one), Some(last)) => {
                layer < self.layers
                    && *one == self.cell(first)
                    && first < self.at
                    && *last <= self.cell(self.at - 1)
            }
            _ => self.bad == 0 && (stripe, layer) == (0, 0),
        };
        let (cells, most) = (self.cells.len() as u64, self.layers_in_cell());
        let counted = cells <= self.bad && self.bad <= cells * most && self.bad <= self.at;
        ends && counted && self.cells.windows(2).all(|pair| pair[0] < pair[1])
    }
}
