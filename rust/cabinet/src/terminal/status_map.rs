//! How each tray stands, on the terminal: one line a rack, one cell a tray, and a line for each tray
//! that is not live.

use super::screen::Screen;
use super::words::hanging;
use crate::status::standing::{Standing, Stands};
use crate::status::Status;
use gesarumbo::Rack;

/// Prints the racks, what the marks mean, and why trays are not live.
pub fn print(status: &Status, screen: &mut Screen) {
    let numbers = &status.cabinet.numbers;
    for rack in (0..numbers.layout.racks).map(Rack::new) {
        let trays = status.trays.iter();
        let trays = trays.filter(|of| numbers.rack_of(of.tray) == rack);
        let cells: String = trays.map(|of| cell(of, screen)).collect();
        screen.line(format!("  rack {rack:>2} {cells}").trim_end());
    }
    let marks = Standing::ALL.iter().filter(|standing| {
        let stands_so = |of: &Stands| of.standing == **standing;
        **standing != Standing::Live && status.trays.iter().any(stands_so)
    });
    let marks: Vec<String> = marks
        .map(|of| format!("{} {}", mark(*of), of.word()))
        .collect();
    if !marks.is_empty() {
        screen.line(format!("  {}", marks.join(", ")));
    }
    for of in &status.trays {
        if of.why.is_some() {
            screen.line(hanging("  ", &of.words(screen)));
        }
    }
}

/// Four columns a tray: its number, and a mark where it is not live.
fn cell(of: &Stands, screen: &Screen) -> String {
    let words = format!("{}{}", of.tray, mark(of.standing));
    screen.paint(of.standing.paint(), &format!("{words:>4}"))
}

fn mark(standing: Standing) -> &'static str {
    match standing {
        Standing::Live => " ",
        Standing::Demonstration => "d",
        Standing::Absent => "-",
        Standing::Stale => "~",
        Standing::Bad => "!",
        Standing::Closed => "x",
    }
}
