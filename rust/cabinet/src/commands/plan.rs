//! `cabinet plan`: a layout's numbers, what it survives and what a repair costs.

use super::Command;
use crate::code::conditions::{conditions, Condition, Verdict};
use crate::code::field::{Field, FIELD};
use crate::code::numbers::Numbers;
use crate::disk::Disk;
use crate::drawing::layout_picture;
use crate::failure::{Failure, Outcome};
use crate::files::output;
use crate::files::share_of_data::ShareOfData;
use crate::terminal::arguments::{Arguments, Setting};
use crate::terminal::json::Json;
use crate::terminal::report;
use crate::terminal::screen::{Paint, Screen};
use crate::terminal::traffic::{self, percent};
use crate::terminal::words::{count, grouped};
use gesarumbo::Layout;
use std::path::Path;

const SVG: Setting = Setting::with("--svg", "FILE", "draw racks, trays, shares and traffic");

pub const COMMAND: Command = Command {
    name: "plan",
    summary: "show a layout's numbers, what it survives and what a repair costs",
    help: HELP,
    settings: &[FIELD, SVG],
    run,
};

const HELP: &str = "\
cabinet plan B u k d [E] [--field N] [--svg FILE]

Shows the numbers of the layout of B racks of u trays, with k trays' worth of
data and d helper racks in a repair, of which E, 0 or 1, may send a wrong share;
which losses it survives; and how many symbols cross in the repair of one tray,
against a plain recovery from k trays. For a layout that is not admissible (1)
it says which conditions fail.
";

fn run(arguments: &Arguments, disk: &dyn Disk, screen: &mut Screen) -> Result<Outcome, Failure> {
    let (layout, []) = arguments.layout_and([])?;
    let field = Field::asked(arguments)?.unwrap_or_default();
    let numbers = Numbers::of(layout, field);
    screen.fact("layout", report::layout(layout));
    screen.fact("field", field.number());
    screen.fact("admissible", numbers.is_ok());
    screen.fact(
        "conditions",
        Json::list(conditions(layout, field), condition_json),
    );
    let numbers = numbers.inspect_err(|_| print_conditions(layout, field, screen))?;
    report_numbers(&numbers, screen);
    print_numbers(&numbers, screen);
    print_survival(&numbers, screen);
    print_traffic(&numbers, screen);
    if let Some(path) = arguments.value(SVG) {
        let path = Path::new(path);
        output::write_named(disk, path, layout_picture::draw(&numbers).as_bytes())?;
        screen.gap();
        screen.line(format!("Drawn in {}", path.display()));
    }
    Ok(Outcome::Done)
}

fn condition_json(condition: Condition) -> Json {
    let verdict = match condition.verdict {
        Verdict::Holds => "holds",
        Verdict::Fails => "fails",
        Verdict::Unknown => "unknown",
    };
    Json::object([
        ("rule", condition.rule.into()),
        ("here", condition.here.into()),
        ("verdict", verdict.into()),
    ])
}

/// The numbers as a report has them.
fn report_numbers(numbers: &Numbers, screen: &mut Screen) {
    let share = ShareOfData::of_long_files(numbers, numbers.field);
    let all = [
        ("n", numbers.trays),
        ("r", numbers.checks),
        ("K", numbers.whole),
        ("v", numbers.part),
        ("R", numbers.parity_racks),
        ("s", numbers.digits),
        ("L", numbers.layers),
        ("groups", numbers.groups),
        ("share", numbers.groups),
        ("at_once", numbers.lost_at_once()),
        ("data", numbers.data()),
        ("codeword", numbers.codeword()),
        ("traffic", numbers.traffic),
        ("plain", numbers.data()),
        ("plain_crossing", numbers.plain_crossing()),
    ];
    all.iter()
        .for_each(|(name, value)| screen.fact(name, *value));
    screen.fact("symbol_bytes", numbers.field.width());
    screen.fact("data_percent", Json::Real(share.percent()));
}

/// Each condition, and whether this layout meets it.
fn print_conditions(layout: Layout, field: Field, screen: &mut Screen) {
    screen.heading(format!("Layout {} is not admissible", field.named(layout)));
    for condition in conditions(layout, field) {
        let verdict = match condition.verdict {
            Verdict::Holds => screen.paint(Paint::Good, "holds"),
            Verdict::Fails => screen.paint(Paint::Bad, "fails"),
            Verdict::Unknown => "  -  ".to_string(),
        };
        screen.line(format!(
            "  {verdict}  {:<24}{}",
            condition.rule, condition.here
        ));
    }
}

fn print_numbers(numbers: &Numbers, screen: &mut Screen) {
    let (base, most_lost) = match numbers.errors {
        0 => ("d - K + 1", "u - v"),
        _ => ("d - K - 1", ""),
    };
    let rows = [
        ("B", "racks", "", numbers.racks),
        ("u", "trays in a rack", "", numbers.size),
        ("n", "trays", "B*u", numbers.trays),
        ("k", "trays' worth of data", "", numbers.dimension),
        (
            "r",
            "trays of parity, checks a layer",
            "n - k",
            numbers.checks,
        ),
        ("K", "whole racks in k", "k/u", numbers.whole),
        ("v", "trays of k beyond them", "k mod u", numbers.part),
        ("R", "checks on rack sums", "B - K", numbers.parity_racks),
        ("d", "helper racks in a repair", "", numbers.helpers),
        (
            "E",
            "helpers that may send a wrong share",
            "",
            numbers.errors,
        ),
        ("s", "layers in a group", base, numbers.digits),
        ("L", "symbols in a tray, layers", "s^B", numbers.layers),
        ("", "groups in a repair", "L/s", numbers.groups),
        ("", "symbols in a share", "L/s", numbers.groups),
        (
            "",
            "lost trays of one rack at a time",
            most_lost,
            numbers.lost_at_once(),
        ),
    ];
    screen.heading(format!("Layout {}", numbers.name()));
    for (name, words, formula, value) in rows {
        screen.line(format!(
            "  {name:<2} {words:<36} {formula:<10} {:>7}",
            grouped(value)
        ));
    }
    print_room(numbers, screen);
    screen.gap();
}

/// How much data there is room for, and which share of the trays' bytes they are.
fn print_room(numbers: &Numbers, screen: &mut Screen) {
    let kind = match numbers.field {
        Field::Of256 => "bytes",
        Field::Of257 => "symbols of two bytes",
    };
    screen.line(format!(
        "  {} bytes of data in a codeword of {} {kind}",
        grouped(numbers.data()),
        grouped(numbers.codeword())
    ));
    let share = ShareOfData::of_long_files(numbers, numbers.field);
    screen.line(format!(
        "  {:.1} % of the bytes on the trays are data, in long files; labels, headers\n  \
         and checksums count",
        share.percent()
    ));
}

fn print_survival(numbers: &Numbers, screen: &mut Screen) {
    let (checks, trays) = (numbers.checks, numbers.trays);
    let lost = count(checks, "lost tray");
    screen.heading("What it survives");
    screen.line(format!(
        "  any {lost} of {trays}; {} are too many",
        checks + 1
    ));
    screen.line(format!("  {}", numbers.lost_racks()));
    screen.gap();
}

fn print_traffic(numbers: &Numbers, screen: &mut Screen) {
    screen.heading("Traffic when one tray is lost");
    traffic::print(numbers, screen);
    if numbers.errors == 0 {
        screen.line("  no method in which each helper sends a fixed number of symbols needs fewer");
    }
    let crossing = numbers.plain_crossing();
    if crossing < numbers.data() {
        let part = percent(numbers.traffic, crossing);
        screen.line(format!(
            "  {} of the {} would come from other racks; shares are {part:.1} % of these",
            grouped(crossing),
            grouped(numbers.data())
        ));
    }
}
