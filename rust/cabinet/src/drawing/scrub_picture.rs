//! The picture of what a scrub has found: a grid with one cell a layer or stripe, or several.

use crate::drawing::frame::{self, EDGE, INNER, TOP};
use crate::files::description::Description;
use crate::scrub::findings::{Findings, State};

const MOST_IN_ROW: usize = 64;

/// Room for the numbers before the rows.
const LABEL: usize = 44;

const WIDEST: usize = 40;
const BELOW: usize = 40;

const STYLE: &str = "\
.sound { fill: #1d8a55; fill-opacity: 0.55; }
.bad { fill: #c0392b; }
.unseen { fill: #ffffff; stroke: #b4c0ca; }
";

/// The whole picture.
pub fn draw(description: &Description, findings: &Findings) -> String {
    let cells = findings.count() as usize;
    let grid = Grid::new(cells);
    let thing = match findings.thing() {
        "layer" => "Layers",
        _ => "Stripes",
    };
    // The title has room for the layout alone, in letters of its size.
    let title = format!("{thing} of cabinet {}", description.name());
    let words = format!("{}; {}", description.contents(), findings.words());
    let height = grid.bottom(cells) + BELOW;
    let mut svg = frame::begin(height, &title, &words);
    frame::legend(
        &State::ALL.map(|state| (class(state), state.words(), 88)),
        &mut svg,
    );
    for first in (0..cells).step_by(grid.in_row) {
        let [x, y] = grid.corner(first);
        let number = first as u64 * findings.in_cell();
        svg.text("small end", [x - 8, y + grid.cell() / 2 + 5], number);
    }
    for cell in 0..cells {
        let class = class(findings.state(cell as u64..cell as u64 + 1));
        svg.rect(class, grid.corner(cell), [grid.cell(), grid.cell()]);
    }
    frame::end(svg, height, &title, STYLE, "")
}

fn class(state: State) -> &'static str {
    match state {
        State::Sound => "sound",
        State::Bad => "bad",
        State::Unseen => "unseen",
    }
}

/// Where the cells stand.
struct Grid {
    in_row: usize,
    step: usize,
}

impl Grid {
    fn new(cells: usize) -> Grid {
        let in_row = cells.min(MOST_IN_ROW);
        Grid {
            in_row,
            step: ((INNER - LABEL) / in_row).min(WIDEST),
        }
    }

    /// A cell's upper left corner.
    fn corner(&self, cell: usize) -> [usize; 2] {
        let x = EDGE + LABEL + (cell % self.in_row) * self.step;
        [x, TOP + (cell / self.in_row) * self.step]
    }

    /// A cell's width and height.
    fn cell(&self) -> usize {
        self.step - self.step.div_ceil(8)
    }

    fn bottom(&self, cells: usize) -> usize {
        TOP + cells.div_ceil(self.in_row) * self.step
    }
}
