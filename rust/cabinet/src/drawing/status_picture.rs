//! The picture of how a cabinet stands: racks of trays, each as it is, and the figures below.

use crate::drawing::frame::{self, EDGE, INNER};
use crate::drawing::grid::{Grid, GAP, NAME};
use crate::drawing::svg::Svg;
use crate::status::standing::{Standing, Stands};
use crate::status::Status;
use crate::terminal::words::lines;
use gesarumbo::Rack;

/// From one row of racks to the next.
const ROW_GAP: usize = 28;

/// A line of the panel, and the letters that fit on it.
const LINE: usize = 24;
const LETTERS: usize = 96;
const COMMAND_LETTERS: usize = 80;

const STYLE: &str = "\
.panel { fill: #f3f6f8; }
.strong { font-weight: bold; }
.rack { fill: #f3f6f8; stroke: #b4c0ca; stroke-width: 1.5; }
.live { fill: #1d8a55; }
.demonstration { fill: #e6b450; }
.absent { fill: #ffffff; stroke: #c0392b; stroke-width: 1.5; stroke-dasharray: 5 3; }
.stale { fill: #8a63b8; }
.bad { fill: #c0392b; }
.closed { fill: #51606d; }
.on { fill: #ffffff; text-anchor: middle; }
.on-demonstration { fill: #3d2c05; text-anchor: middle; }
.on-absent { fill: #c0392b; text-anchor: middle; font-weight: bold; }
.tiny { font-size: 11px; }
.command { font-family: 'DejaVu Sans Mono', Menlo, Consolas, monospace; font-weight: bold; }
";

/// The whole picture.
pub fn draw(status: &Status) -> String {
    let grid = Grid::new(&status.cabinet.numbers, ROW_GAP);
    let title = format!("Cabinet {}", status.cabinet.description.name());
    let figures = figures(status);
    let count: usize = figures.iter().map(|(_, _, lines)| lines.len()).sum();
    let panel = 24 + count * LINE;
    let height = grid.bottom() + panel + 24;
    let mut svg = frame::begin(height, &title, &words(status));
    let legend = Standing::ALL.map(|of| (of.word(), of.word(), 45 + 8 * of.word().len()));
    frame::legend(&legend, &mut svg);
    for rack in 0..status.cabinet.numbers.racks {
        draw_rack(status, &grid, rack, &mut svg);
    }
    svg.rect("panel", [EDGE - 20, grid.bottom()], [INNER + 40, panel]);
    draw_figures(&figures, grid.bottom() + 30, &mut svg);
    frame::end(svg, height, &title, STYLE, "")
}

/// The words below the title.
fn words(status: &Status) -> String {
    let whole = status.cabinet.description.words();
    let name = format!("Cabinet {}, ", status.cabinet.description.name());
    whole.strip_prefix(&name).unwrap_or(&whole).to_string()
}

fn draw_rack(status: &Status, grid: &Grid, rack: usize, svg: &mut Svg) {
    let [x, y] = grid.corner(rack);
    svg.rect("rack", [x, y], [grid.rack_width, grid.rack_height]);
    let middle = [x + grid.rack_width / 2, y + 19];
    svg.text("small middle", middle, format!("rack {rack}"));
    let trays = status.cabinet.numbers.trays_of(Rack::new(rack as u32));
    for (place, tray) in trays.enumerate() {
        let top = y + NAME + place * (grid.tray_height + GAP);
        draw_tray(
            &status.trays[tray.number() as usize],
            grid,
            [x + 6, top],
            svg,
        );
    }
}

fn draw_tray(of: &Stands, grid: &Grid, [x, y]: [usize; 2], svg: &mut Svg) {
    let width = grid.rack_width - 12;
    svg.rect(of.standing.word(), [x, y], [width, grid.tray_height]);
    let on = match of.standing {
        Standing::Demonstration => "on-demonstration",
        Standing::Absent => "on-absent",
        _ => "on",
    };
    let size = if grid.tray_height < 24 { " tiny" } else { "" };
    let middle = [x + width / 2, y + grid.tray_height / 2 + 5 - size.len() / 5];
    svg.text(&format!("{on}{size}"), middle, of.tray);
}

/// A name, the class of its words, and these in lines.
type Figure = (&'static str, &'static str, Vec<String>);

/// What stands in the panel.
fn figures(status: &Status) -> Vec<Figure> {
    let plain = |name, words: &str| (name, "small", lines(words, LETTERS));
    let mut figures = vec![
        plain("trays", &status.counts()),
        plain("margin", &status.margin()),
        plain("last scrub", &status.last_scrub()),
    ];
    if status.work.is_empty() {
        figures.push(plain("open work", "none"));
    }
    for work in &status.work {
        figures.push(plain("open work", &work.words(status.cabinet)));
    }
    let next = status.next();
    if let Some(line) = &next.line {
        figures.push(("next", "command", pieces(line)));
    }
    let name = if next.line.is_some() { "" } else { "next" };
    figures.push(plain(name, &next.why));
    figures
}

/// A line in pieces that fit, cut anywhere.
fn pieces(line: &str) -> Vec<String> {
    let letters: Vec<char> = line.chars().collect();
    letters
        .chunks(COMMAND_LETTERS)
        .map(|piece| piece.iter().collect())
        .collect()
}

fn draw_figures(figures: &[Figure], top: usize, svg: &mut Svg) {
    let mut y = top;
    for (name, class, lines) in figures {
        svg.text("strong", [EDGE, y], name);
        for line in lines {
            svg.text(class, [EDGE + 110, y], line);
            y += LINE;
        }
    }
}
