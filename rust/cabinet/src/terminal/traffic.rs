//! The traffic of one repair against that of a plain recovery.

use crate::code::numbers::Numbers;
use crate::terminal::progress::bar;
use crate::terminal::screen::{Paint, Screen};
use crate::terminal::words::{count, grouped};

/// Prints both as bars, and what is saved.
pub fn print(numbers: &Numbers, screen: &mut Screen) {
    let (shares, plain) = (numbers.traffic, numbers.data());
    let bars = [
        ("by shares", shares, by_shares(numbers)),
        ("plain recovery", plain, by_trays(numbers)),
    ];
    for (name, symbols, how) in bars {
        let bar = bar(symbols as u64, shares.max(plain) as u64, 20);
        screen.line(format!(
            "  {name:<15} {bar} {:>7} = {how}",
            grouped(symbols)
        ));
    }
    let saved = match plain.checked_sub(shares) {
        Some(saved) => {
            let saved = format!("{:.1} % saved", percent(saved, plain));
            screen.paint(Paint::Good, &saved)
        }
        // What it costs to be told which share is wrong.
        None => {
            let more = format!("{:.1} % more", percent(shares - plain, plain));
            screen.paint(Paint::Warning, &more)
        }
    };
    let (crossed, part) = (count(shares, "symbol"), percent(shares, plain));
    screen.line(format!(
        "  {saved}: {crossed} in place of {}, or {part:.1} %",
        grouped(plain)
    ));
}

/// How the symbols of a repair by shares come together.
pub fn by_shares(numbers: &Numbers) -> String {
    format!(
        "{} of {}",
        count(numbers.helpers, "share"),
        count(numbers.groups, "symbol")
    )
}

/// How those of a plain recovery do.
pub fn by_trays(numbers: &Numbers) -> String {
    format!(
        "{} of {}",
        count(numbers.dimension, "tray"),
        count(numbers.layers, "symbol")
    )
}

/// One number as a part of another, in hundredths.
pub fn percent(part: usize, whole: usize) -> f64 {
    100.0 * part as f64 / whole as f64
}
