//! What a scrub has found, on the terminal: rows of cells, each of one layer or stripe or several.

use super::runs;
use super::screen::{Paint, Screen};
use super::words::{count, hanging};
use crate::scrub::findings::{Findings, State};

/// Cells of a row, in blocks with a space between.
const ROW: u64 = 64;
const BLOCK: u64 = 8;

const MOST_ROWS: u64 = 16;

/// Prints what the cells mean, the rows, and the numbers of the bad layers or stripes.
pub fn print(findings: &Findings, screen: &mut Screen) {
    let step = findings.count().div_ceil(ROW * MOST_ROWS);
    let size = step * findings.in_cell();
    let thing = findings.thing();
    let meanings = State::ALL.map(|state| format!("{} {}", mark(state), state.words()));
    screen.line(format!(
        "  {} a cell: {}",
        count(size as usize, thing),
        meanings.join(", ")
    ));
    let rows = findings.count().div_ceil(ROW * step);
    for first in (0..rows).map(|row| row * ROW * step) {
        let cells = row(findings, first, step, screen);
        let number = first * findings.in_cell();
        screen.line(format!("  {number:>4} {cells}"));
    }
    if !findings.is_sound() {
        let head = match findings.in_cell() {
            1 => format!("  bad {thing}s: "),
            _ => format!("  bad {thing}s are among: "),
        };
        screen.line(hanging(&head, &runs::named(&findings.bad_runs())));
    }
}

/// The cells of a row that begins with this one of the findings.
fn row(findings: &Findings, first: u64, step: u64, screen: &Screen) -> String {
    let end = findings.count().min(first + ROW * step);
    let mut cells = String::new();
    for (place, at) in (0..).zip((first..end).step_by(step as usize)) {
        if place > 0 && u64::is_multiple_of(place, BLOCK) {
            cells.push(' ');
        }
        cells.push_str(&cell(findings.state(at..end.min(at + step)), screen));
    }
    cells
}

fn cell(state: State, screen: &Screen) -> String {
    match state {
        State::Bad => screen.paint(Paint::Bad, mark(state)),
        _ => mark(state).to_string(),
    }
}

fn mark(state: State) -> &'static str {
    match state {
        State::Sound => ".",
        State::Bad => "#",
        State::Unseen => "-",
    }
}
