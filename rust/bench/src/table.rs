//! The tables of times and of instructions, in markdown.

use crate::timing::Times;
use std::fmt::Display;

/// The heading of calls that are measured for layouts.
pub const LAYOUT: &str = "layout";

/// Prints the heading: what is measured, the figures of each version, and the first against each of
/// the others.
pub fn heading(of: &str, names: &[&str], unit: &str) {
    let times = names.iter().map(|name| format!("{name}{unit}"));
    let ratios = names[1..]
        .iter()
        .map(|name| format!("{} / {name}", names[0]));
    let titles: Vec<String> = times.chain(ratios).collect();
    line(of, "call", &titles);
    line("---", "---", &vec!["---:".to_string(); titles.len()]);
}

/// Prints the times of one call.
pub fn row(of: impl Display, call: &str, all: &[Times]) {
    let first = &all[0];
    let times = all.iter().map(|t| pair(t.least, t.median));
    let ratios = all[1..]
        .iter()
        .map(|t| pair(first.least / t.least, first.median / t.median));
    let cells: Vec<String> = times.chain(ratios).collect();
    line(&of.to_string(), call, &cells);
}

/// Prints the instructions of one call.
pub fn counts(of: impl Display, call: &str, all: &[u64]) {
    let counts = all.iter().map(u64::to_string);
    let ratios = all[1..].iter().map(|&n| short(all[0] as f64 / n as f64));
    line(&of.to_string(), call, &Vec::from_iter(counts.chain(ratios)));
}

/// Prints figures of one call that are no times.
pub fn figures(of: impl Display, call: &str, all: &[f64]) {
    let ratios = all[1..].iter().map(|figure| all[0] / figure);
    let cells = all.iter().copied().chain(ratios).map(short);
    line(&of.to_string(), call, &Vec::from_iter(cells));
}

fn pair(least: f64, median: f64) -> String {
    format!("{} / {}", short(least), short(median))
}

/// A number with two digits after the point, more where it is small and fewer where it is large.
fn short(number: f64) -> String {
    let digits = match number {
        n if n < 0.1 => 3,
        n if n < 10.0 => 2,
        n if n < 100.0 => 1,
        _ => 0,
    };
    format!("{number:.digits$}")
}

fn line(of: &str, call: &str, cells: &[String]) {
    println!("| {of} | {call} | {} |", cells.join(" | "));
}
