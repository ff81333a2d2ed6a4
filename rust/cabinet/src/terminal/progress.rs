//! Bars, and the lines that say how far a task is.

use super::screen::Screen;
use crate::files::shape::Shape;
use std::ops::Range;

/// A task prints as many lines, or fewer.
const LINES: u64 = 8;

/// Columns of a line.
const WIDTH: usize = 80;
const MOST_CELLS: usize = 16;

/// A bar of some cells, filled in proportion; something is never shown as nothing.
pub fn bar(part: u64, whole: u64, cells: usize) -> String {
    let exact = u128::from(part) * cells as u128;
    let filled = match u128::from(whole) {
        0 => cells as u128,
        whole => exact.div_ceil(whole).min(cells as u128),
    };
    let filled = usize::try_from(filled).unwrap_or(0);
    let empty = cells - filled;
    format!("[{}{}]", "#".repeat(filled), ".".repeat(empty))
}

/// A line with a bar between its words, as long as there is room for.
fn line(before: &str, part: u64, whole: u64, after: &str) -> String {
    let words = before.chars().count() + after.chars().count();
    let cells = WIDTH.saturating_sub(words + "   []  ".len());
    let bar = bar(part, whole, cells.clamp(2, MOST_CELLS));
    format!("  {before} {bar} {after}").trim_end().to_string()
}

/// The things from the first to the one before the end, in words.
pub fn run(thing: &str, first: u64, end: u64) -> String {
    match end - first {
        0 => format!("no {thing}"),
        1 => format!("{thing} {first}"),
        _ => format!("{thing}s {first}-{}", end - 1),
    }
}

/// How far a task is that goes over all stripes, in steps of which each stripe has as many: groups
/// or layers.
#[derive(Clone, Copy)]
struct Place {
    /// Steps of one stripe.
    steps: u64,
    stripes: u64,
    /// Steps done of all stripes together.
    at: u64,
}

impl Place {
    fn of(cabinet: &Shape, steps: usize, at: u64) -> Place {
        Place {
            steps: steps as u64,
            stripes: cabinet.description.stripes.into(),
            at,
        }
    }

    fn whole(&self) -> u64 {
        self.steps * self.stripes
    }

    /// Where the next line ends that begins here: with a stripe, where there are several.
    fn line_end(&self) -> u64 {
        match self.stripes {
            1 => self.at + self.steps.div_ceil(LINES),
            _ => {
                let size = self.steps * self.stripes.div_ceil(LINES);
                (self.at / size + 1) * size
            }
        }
    }

    /// Which steps were done since a place, and how far the whole is, with some words.
    fn line(&self, thing: &str, since: u64, words: &str) -> String {
        let (at, whole) = (self.at, self.whole());
        if self.stripes == 1 {
            let wide = if thing == "group" { 3 } else { 4 };
            let which = run(thing, since, at);
            return line(
                &format!("{which:<16}"),
                at,
                whole,
                &format!("{at:>wide$} of {whole}: {words}"),
            );
        }
        let (stripe, step) = (at / self.steps, at % self.steps);
        let wide = self.stripes.to_string().len();
        let part = match step {
            0 => String::new(),
            step => format!(", {thing}s 0-{}", step - 1),
        };
        let done = format!("{stripe:>wide$} of {} stripes{part}", self.stripes);
        line(&done, at, whole, words)
    }
}

/// After a stripe of a task without anything else to say: how many stripes are done, if it is time
/// for a line.
pub fn stripes(cabinet: &Shape, done: u32, screen: &mut Screen) {
    let place = Place::of(cabinet, 1, done.into());
    let before = Place {
        at: place.at - 1,
        ..place
    };
    if place.stripes > 1 && (place.at == before.line_end() || place.at == place.stripes) {
        screen.line(place.line("stripe", 0, ""));
    }
}

/// After a segment of such a task: a line if one was due within it.
pub fn segment(cabinet: &Shape, stripes: &Range<u32>, screen: &mut Screen) {
    let whole = u64::from(cabinet.description.stripes);
    let size = whole.div_ceil(LINES);
    let (start, end) = (u64::from(stripes.start), u64::from(stripes.end));
    if whole > 1 && (end / size > start / size || end == whole) {
        let place = Place::of(cabinet, 1, end);
        screen.line(place.line("stripe", 0, ""));
    }
}

/// Says with which stripe a task goes on that was cut, where there are several.
pub fn goes_on(cabinet: &Shape, stripe: u32, screen: &mut Screen) {
    if cabinet.description.stripes > 1 {
        screen.line(format!("  goes on with stripe {stripe}"));
    }
}

/// A run of a task's steps, counted over all stripes, with a line from time to time.
pub struct Run {
    thing: &'static str,
    place: Place,
    /// Where the line under way began, and where it ends.
    line: Range<u64>,
    end: u64,
}

impl Run {
    /// A run of steps, of which each stripe has as many; it ends with the last stripe.
    pub fn new(cabinet: &Shape, thing: &'static str, steps: usize, run: Range<u64>) -> Run {
        let place = Place::of(cabinet, steps, run.start);
        Run {
            thing,
            place,
            line: place.at..place.line_end(),
            end: run.end,
        }
    }

    /// Steps done of all stripes together.
    pub fn at(&self) -> u64 {
        self.place.at
    }

    /// How many steps may be done in one call.
    pub fn budget(&self) -> u64 {
        self.line.end.min(self.end) - self.place.at
    }

    /// Whether all steps of the run are done.
    pub fn is_over(&self) -> bool {
        self.place.at >= self.end
    }

    /// Counts steps that were done, and prints a line with some words if it is time for one.
    pub fn advance(&mut self, steps: u64, words: impl FnOnce() -> String, screen: &mut Screen) {
        self.place.at += steps;
        if self.is_over() || self.place.at >= self.line.end {
            screen.line(self.place.line(self.thing, self.line.start, &words()));
            self.line = self.place.at..self.place.line_end();
        }
    }
}

#[cfg(test)]
mod tests {
    use super::{bar, Place};

    #[test]
    fn bars_are_filled_in_proportion() {
        assert_eq!(bar(0, 8, 8), "[........]");
        assert_eq!(bar(3, 8, 8), "[###.....]");
        assert_eq!(bar(1, 1000, 4), "[#...]");
        assert_eq!(bar(9, 8, 4), "[####]");
        assert_eq!(bar(0, 0, 2), "[##]");
    }

    #[test]
    fn lines_say_how_far_a_task_is() {
        let place = |stripes, at| Place {
            steps: 8,
            stripes,
            at,
        };
        assert_eq!(
            place(1, 3).line("group", 1, "well"),
            "  groups 1-2       [######..........]   3 of 8: well"
        );
        assert_eq!(
            place(10, 40).line("group", 1, "well"),
            "   5 of 10 stripes [########........] well"
        );
        assert_eq!(
            place(10, 43).line("group", 1, "well"),
            "   5 of 10 stripes, groups 0-2 [#########.......] well"
        );
    }
}
