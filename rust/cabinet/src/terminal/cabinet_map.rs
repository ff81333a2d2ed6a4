//! A cabinet drawn on the terminal: one line a rack, one cell a tray.

use super::screen::{Paint, Screen};
use crate::code::numbers::Numbers;
use crate::files::found::Kind;
use gesarumbo::{Rack, Tray};

/// Prints the cabinet, and what the cells of trays that are not live mean.
pub fn print(numbers: &Numbers, kinds: &[Kind], screen: &mut Screen) {
    for rack in (0..numbers.layout.racks).map(Rack::new) {
        let trays = numbers.trays_of(rack);
        let cells: String = trays
            .map(|tray| cell(kinds[tray.number() as usize], tray, screen))
            .collect();
        screen.line(format!("  rack {rack:>2} {cells}"));
    }
    let mut kinds = kinds.to_vec();
    kinds.sort();
    kinds.dedup();
    let meanings: Vec<&str> = kinds.into_iter().filter_map(meaning).collect();
    if !meanings.is_empty() {
        screen.line(format!("  {}", meanings.join(", ")));
    }
}

/// Four columns a tray, so that 17 of them fit on a line.
fn cell(kind: Kind, tray: Tray, screen: &Screen) -> String {
    let (paint, words) = match kind {
        Kind::Live => (Paint::Good, tray.to_string()),
        Kind::Demonstration => (Paint::Warning, format!("({tray})")),
        Kind::Absent => (Paint::Strong, "-".to_string()),
        Kind::Unusable => (Paint::Bad, "?".to_string()),
    };
    screen.paint(paint, &format!("{words:>4}"))
}

fn meaning(kind: Kind) -> Option<&'static str> {
    match kind {
        Kind::Live => None,
        Kind::Demonstration => Some("in brackets: demonstration"),
        Kind::Absent => Some("-: absent"),
        Kind::Unusable => Some("?: cannot be used"),
    }
}
