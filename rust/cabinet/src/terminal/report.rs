//! The report that `--json` prints in place of all lines: what every one has, and the parts that
//! several commands have in common. docs/JSON.md says what each name means.

use super::arguments::Setting;
use super::json::Json;
use super::screen::Facts;
use crate::code::layout;
use crate::failure::{Failure, Outcome};
use crate::files::cabinet::Cabinet;
use crate::files::description::{Description, Format};
use crate::files::mend::Held;
use gesarumbo::{Layout, Rack, Tray};
use std::ops::Range;
use std::path::Path;

pub const JSON: Setting = Setting::plain(
    "--json",
    "print one JSON object in place of all lines (docs/JSON.md)",
);

pub const QUIET: Setting = Setting::plain(
    "--quiet",
    "print nothing but what a failure has to say; the exit status tells the rest",
);

/// The commands that print what they do, besides those that report.
const TELLING: [&str; 3] = ["share", "card", "read"];

/// Whether a command can be told to print nothing.
pub fn can_be_quiet(name: &str) -> bool {
    REPORTING.contains(&name) || TELLING.contains(&name)
}

/// The commands that report.
pub const REPORTING: [&str; 13] = [
    "status", "fix", "replace", "choose", "plan", "store", "get", "test", "scrub", "recover",
    "repair", "margin", "inspect",
];

/// Rises where a name goes or gets another meaning; names may be added at any time.
const VERSION: u32 = 1;

/// What every report begins with.
pub fn head(command: &'static str, ended: &Result<Outcome, Failure>) -> Facts {
    let (status, outcome, message) = match ended {
        Ok(outcome) => (outcome.status(), outcome.name(), None),
        Err(failure) => (failure.status(), failure.name(), Some(failure.to_string())),
    };
    vec![
        ("json", VERSION.into()),
        ("command", command.into()),
        ("status", status.into()),
        ("outcome", outcome.into()),
        ("message", message.into()),
    ]
}

/// The five numbers of a layout.
pub fn layout(layout: Layout) -> Json {
    layout::numbers(layout).to_vec().into()
}

/// What a cabinet is, and where.
pub fn cabinet(cabinet: &Cabinet) -> Json {
    let mut fields = vec![("folder", path(cabinet.folder()))];
    fields.extend(description(&cabinet.description));
    fields.push(("trays", cabinet.numbers.trays.into()));
    fields.push(("needed", cabinet.numbers.dimension.into()));
    Json::Object(fields)
}

/// What a label says of a cabinet.
pub fn description(description: &Description) -> Facts {
    let format = match description.format {
        Format::First => 1_u32,
        Format::Second => 2,
    };
    let checksum = description.checksum.map(|sum| format!("{sum:016x}"));
    vec![
        ("format", format.into()),
        ("layout", layout(description.layout)),
        ("field", description.field.number().into()),
        ("volume", description.volume.into()),
        ("generation", description.generation.into()),
        ("stripes", description.stripes.into()),
        ("length", description.length.into()),
        ("checksum", checksum.into()),
    ]
}

/// A path as text; what of it is none is replaced.
pub fn path(path: &Path) -> Json {
    path.to_string_lossy().into_owned().into()
}

pub fn trays(trays: &[Tray]) -> Json {
    Json::list(trays, |tray| tray.number().into())
}

pub fn racks(racks: &[Rack]) -> Json {
    Json::list(racks, |rack| rack.number().into())
}

/// Runs of stripes, each with its first and its last.
pub fn runs(runs: &[Range<u64>]) -> Json {
    Json::list(runs, |run| vec![run.start, run.end - 1].into())
}

/// What symbols were held against.
pub fn held(held: Held) -> Json {
    match held {
        Held::Nothing => "nothing".into(),
        Held::Checksums => "checksums".into(),
        Held::Checks => "checks".into(),
    }
}
