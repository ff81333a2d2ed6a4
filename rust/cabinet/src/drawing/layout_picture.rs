//! The picture of a layout: racks of trays, one repair by shares, and its traffic.
//!
//! It shows a tray lost in rack 0, with racks 1 to d as helpers.

use crate::code::numbers::Numbers;
use crate::drawing::frame::{self, EDGE, INNER};
use crate::drawing::grid::{Grid, GAP, NAME};
use crate::drawing::svg::Svg;
use crate::terminal::traffic::{self, percent};
use crate::terminal::words::{count, grouped};
use gesarumbo::{Rack, Tray};

/// From the racks down to the line on which shares travel, and to the next row.
const DROP: usize = 54;
const ROW_GAP: usize = 96;

/// The arrow into the host rack ends so far below it, leaving room for its head.
const HEAD: usize = 10;

const PANEL: usize = 190;

const STYLE: &str = "\
.panel { fill: #f3f6f8; }
.strong { font-weight: bold; }
.figure { font-size: 34px; font-weight: bold; fill: #1d8a55; text-anchor: end; }
.rack { fill: #f3f6f8; stroke: #b4c0ca; stroke-width: 1.5; }
.helper .rack { stroke: #1d8a55; stroke-width: 2; }
.host .rack { stroke: #c0392b; stroke-width: 2; }
.idle { opacity: 0.45; }
.data { fill: #2b6a9b; }
.parity { fill: #e6b450; }
.lost { fill: #ffffff; stroke: #c0392b; stroke-width: 1.5; stroke-dasharray: 5 3; }
.on-data { fill: #ffffff; text-anchor: middle; }
.on-parity { fill: #3d2c05; text-anchor: middle; }
.on-lost { fill: #c0392b; text-anchor: middle; font-weight: bold; }
.tiny { font-size: 11px; }
.way { fill: none; stroke: #1d8a55; stroke-width: 2; }
.arrow { fill: none; stroke: #1d8a55; stroke-width: 3; marker-end: url(#head); }
.share { fill: #1d8a55; }
.on-share { fill: #ffffff; text-anchor: middle; font-size: 12px; font-weight: bold; }
.plain { fill: #9aa8b4; }
";

const MARKS: &str = "\
<marker id=\"head\" viewBox=\"0 0 10 10\" refX=\"3\" refY=\"5\"
 markerWidth=\"4\" markerHeight=\"4\" orient=\"auto\">
<path d=\"M0,0 L10,5 L0,10 Z\" fill=\"#1d8a55\"/></marker>
";

/// The whole picture.
pub fn draw(numbers: &Numbers) -> String {
    let grid = Grid::new(numbers, ROW_GAP);
    let title = format!("Cabinet {}", numbers.name());
    let height = grid.bottom() + PANEL;
    let mut svg = frame::begin(height, &title, &words(numbers));
    draw_legend(numbers, &mut svg);
    draw_ways(numbers, &grid, &mut svg);
    for rack in 0..numbers.racks {
        svg.group(role(numbers, rack), |svg| {
            draw_rack(numbers, &grid, rack, svg)
        });
    }
    draw_traffic(numbers, grid.bottom(), &mut svg);
    frame::end(svg, height, &title, STYLE, MARKS)
}

/// The height of the line on which the shares of a row travel.
fn way_of(grid: &Grid, row: usize) -> usize {
    grid.row_end(row) + DROP
}

fn role(numbers: &Numbers, rack: usize) -> &'static str {
    match rack {
        0 => "host",
        _ if rack <= numbers.helpers => "helper",
        _ => "idle",
    }
}

/// The tray shown as lost: the middle one of rack 0.
fn lost(numbers: &Numbers) -> Tray {
    Tray::new(numbers.layout.size / 2)
}

/// The words below the title.
fn words(numbers: &Numbers) -> String {
    let (racks, size) = (numbers.racks, numbers.size);
    let (dimension, checks) = (numbers.dimension, numbers.checks);
    let mut parts = vec![
        format!("{racks} racks of {}", count(size, "tray")),
        format!("{} a tray", count(numbers.layers, "symbol")),
        format!(
            "{} of data and {checks} of parity",
            count(dimension, "tray")
        ),
    ];
    if numbers.errors > 0 {
        parts.push(format!("one of {} shares may be wrong", numbers.helpers));
    }
    parts.join(", ")
}

fn draw_legend(numbers: &Numbers, svg: &mut Svg) {
    let entries = [
        ("data", "data", 80),
        ("parity", "parity", 88),
        ("lost", "lost tray", 108),
        ("share", "share of a helper rack, in symbols", 270),
    ];
    let [x, y] = frame::legend(&entries, svg);
    if numbers.helpers + 1 < numbers.racks {
        svg.group("idle", |svg| svg.rect("rack", [x, y], [16, 16]));
        svg.text("small", [x + 23, y + 13], "rack not asked");
    }
}

/// The way of every share to the host rack: down to its row's line, along it and up into rack 0.
fn draw_ways(numbers: &Numbers, grid: &Grid, svg: &mut Svg) {
    let trunk = grid.left - 20;
    let [host, host_foot] = grid.foot(0);
    for rack in 1..=numbers.helpers {
        let [x, y] = grid.foot(rack);
        let way = way_of(grid, grid.row(rack));
        let turn = if grid.row(rack) == 0 { host } else { trunk };
        svg.line("way", &[[x, y], [x, way], [turn, way]]);
    }
    let way = way_of(grid, 0);
    let last = grid.row(numbers.helpers);
    if last > 0 {
        svg.line(
            "way",
            &[[trunk, way_of(grid, last)], [trunk, way], [host, way]],
        );
    }
    svg.line("arrow", &[[host, way], [host, host_foot + HEAD]]);
    for rack in 1..=numbers.helpers {
        draw_share(numbers.groups, grid.foot(rack), svg);
    }
    let arriving = format!("{} to rack 0", count(numbers.traffic, "symbol"));
    svg.text("small", [host - 8, way + 20], arriving);
}

fn draw_share(symbols: usize, [x, y]: [usize; 2], svg: &mut Svg) {
    svg.rect("share", [x - 18, y + 14], [36, 22]);
    svg.text("on-share", [x, y + 29], symbols);
}

fn draw_rack(numbers: &Numbers, grid: &Grid, rack: usize, svg: &mut Svg) {
    let [x, y] = grid.corner(rack);
    svg.rect("rack", [x, y], [grid.rack_width, grid.rack_height]);
    svg.text(
        "small middle",
        [x + grid.rack_width / 2, y + 19],
        format!("rack {rack}"),
    );
    let trays = numbers.trays_of(Rack::new(rack as u32));
    for (place, tray) in trays.enumerate() {
        let top = y + NAME + place * (grid.tray_height + GAP);
        draw_tray(numbers, grid, tray, [x + 6, top], svg);
    }
}

fn draw_tray(numbers: &Numbers, grid: &Grid, tray: Tray, [x, y]: [usize; 2], svg: &mut Svg) {
    let kind = match tray {
        _ if tray == lost(numbers) => "lost",
        _ if (tray.number() as usize) < numbers.dimension => "data",
        _ => "parity",
    };
    let width = grid.rack_width - 12;
    svg.rect(kind, [x, y], [width, grid.tray_height]);
    let size = if grid.tray_height < 24 { " tiny" } else { "" };
    let middle = [x + width / 2, y + grid.tray_height / 2 + 5 - size.len() / 5];
    svg.text(&format!("on-{kind}{size}"), middle, tray);
}

/// Two bars: what crosses by shares, and what a plain recovery reads.
fn draw_traffic(numbers: &Numbers, top: usize, svg: &mut Svg) {
    let (shares, plain) = (numbers.traffic, numbers.data());
    svg.rect("panel", [EDGE - 20, top], [INNER + 40, PANEL - 24]);
    svg.text("strong", [EDGE, top + 30], "Traffic when one tray is lost");
    let by_shares = format!(
        "by shares: {} = {}",
        traffic::by_shares(numbers),
        grouped(shares)
    );
    let by_trays = format!(
        "plain recovery: {} = {}",
        traffic::by_trays(numbers),
        grouped(plain)
    );
    let bars = [
        ("share", shares, by_shares),
        ("plain", plain, by_trays + &from_others(numbers)),
    ];
    let full = INNER - 180;
    for (place, (class, symbols, words)) in bars.into_iter().enumerate() {
        let y = top + 54 + place * 42;
        svg.text("small", [EDGE, y], words);
        let length = full * symbols / shares.max(plain);
        svg.rect(class, [EDGE, y + 6], [length.max(3), 14]);
    }
    let figure = format!("{:.1} %", percent(shares, plain));
    svg.text("figure", [EDGE + INNER, top + 84], figure);
    svg.text("small end", [EDGE + INNER, top + 104], "of plain recovery");
    let trays = count(numbers.checks, "lost tray");
    let survived = format!("Survives any {trays}; {}.", numbers.lost_racks());
    svg.text("small", [EDGE, top + 148], survived);
}

/// How much of a plain recovery comes from other racks, if not all.
fn from_others(numbers: &Numbers) -> String {
    match numbers.plain_crossing() {
        all if all == numbers.data() => String::new(),
        part => format!(", {} of them from other racks", grouped(part)),
    }
}
