//! `cabinet choose`: the layouts that do for so many trays and so many lost ones.

use super::Command;
use crate::code::conditions::MOST_TRAYS;
use crate::code::field::Field;
use crate::disk::Disk;
use crate::failure::{Failure, Outcome};
use crate::files::share_of_data::{ShareOfData, Taken};
use crate::terminal::arguments::{needed, Arguments, Setting};
use crate::terminal::json::Json;
use crate::terminal::report;
use crate::terminal::screen::Screen;
use crate::terminal::traffic::percent;
use crate::terminal::words::{count, grouped};
use gesarumbo::{Layout, Numbers, Refusal};
use std::cmp::Ordering;

const TRAYS: Setting = Setting::with("--trays", "N", "the trays in all");
const SURVIVE: Setting = Setting::with(
    "--survive",
    "R",
    "how many lost trays, whichever they are, must be survived",
);
const RACK: Setting = Setting::with("--rack", "U", "the trays of a rack; any if not given");
const SIZE: Setting = Setting::with("--size", "BYTES", "say too what so much data takes");
const ALL: Setting = Setting::plain("--all", "leave none out");

pub const COMMAND: Command = Command {
    name: "choose",
    summary: "list the layouts that do for so many trays and so many lost ones",
    help: HELP,
    settings: &[TRAYS, SURVIVE, RACK, SIZE, ALL],
    run,
};

const HELP: &str = "\
cabinet choose --trays N --survive R [--rack U] [--size BYTES] [--all]

Lists admissible layouts (B, u, k, d) and (B, u, k, d, 1) of N trays of which
any R may be lost, in both fields, those with the most data first:

  lost      trays that may be lost, whichever they are: r, at least R
  data      bytes of data, as part of the bytes of the tray files, with labels,
            headers and checksums: for data of --size, else what it comes to as
            files grow; in the field of 257 a symbol takes two bytes
  L         symbols of a tray in a codeword
  traffic   symbols that cross between racks in the repair of one tray
  of plain  these, as part of what a plain recovery reads
  at once   lost trays of one rack that are repaired together

With --size also the stripes that the data take, the bytes of a tray file, and
those that cross in its repair.

With a fifth number 1 one rack's wrong share is corrected and named. For each
size of racks, fifth number and L two layouts are listed: the one with the most
data, and of those that repair a whole rack at once the one with the most. They
are left out where another with racks of the same size has as much data, repairs
as many at once, corrects as much for no more traffic, and is better in one.
";

/// What the command line asks for.
struct Asked {
    trays: u32,
    survive: u32,
    rack: Option<u32>,
    size: Option<u64>,
}

impl Asked {
    fn read(arguments: &Arguments) -> Result<Asked, Failure> {
        let [] = arguments.words([])?;
        Ok(Asked {
            trays: needed(TRAYS, arguments.number(TRAYS)?)?,
            survive: needed(SURVIVE, arguments.number(SURVIVE)?)?,
            rack: arguments.number(RACK)?,
            size: arguments.number(SIZE)?,
        })
    }

    /// The same in words.
    fn words(&self) -> String {
        let racks = self.rack.map(|size| format!(" in racks of {size}"));
        format!(
            "{}{}, of which any {} may be lost",
            count(self.trays as usize, "tray"),
            racks.unwrap_or_default(),
            self.survive
        )
    }

    /// Why there is none, as far as it is known.
    fn why_none(&self) -> String {
        let sizes = [1, 2, 3, 4, 5, 8, 15, 16, 17];
        let words = self.words();
        match self.rack {
            _ if u64::from(self.trays) > MOST_TRAYS => {
                format!("{words}: at most {MOST_TRAYS} trays")
            }
            Some(size) if !sizes.contains(&size) => {
                format!("{words}: a rack has 1, 2, 3, 4, 5, 8, 15, 16 or 17 trays")
            }
            Some(size) if !self.trays.is_multiple_of(size) => {
                format!("{words}: {} trays are no whole racks of {size}", self.trays)
            }
            _ => words,
        }
    }

    /// Every layout of these trays that may do, admissible or not.
    fn layouts(&self) -> impl Iterator<Item = Layout> + '_ {
        let fits = |size: &u32| {
            self.trays.is_multiple_of(*size) && self.rack.is_none_or(|only| only == *size)
        };
        let few = u64::from(self.trays) <= MOST_TRAYS;
        let sizes = (1..=self.trays).take_while(move |_| few).filter(fits);
        let most = self.trays.saturating_sub(self.survive);
        sizes.flat_map(move |size| {
            let racks = self.trays / size;
            (1..=most).flat_map(move |dimension| {
                (1..racks).flat_map(move |helpers| {
                    [0, 1].map(|e| Layout::with_errors(racks, size, dimension, helpers, e))
                })
            })
        })
    }
}

fn run(arguments: &Arguments, _: &dyn Disk, screen: &mut Screen) -> Result<Outcome, Failure> {
    let asked = Asked::read(arguments)?;
    let fields = [Field::Of256, Field::Of257];
    let all = fields.map(|field| {
        let asked = &asked;
        asked
            .layouts()
            .filter_map(move |layout| Choice::of(layout, field, asked.size))
    });
    let all: Vec<Choice> = all.into_iter().flatten().collect();
    if all.is_empty() {
        return Err(Failure::refused(asked.why_none())(Refusal::Layout));
    }
    let mut kept = match arguments.has(ALL) {
        true => all.clone(),
        false => best(&all),
    };
    kept.sort_by(Choice::order);
    screen.fact("trays", asked.trays);
    screen.fact("survive", asked.survive);
    screen.fact("size", asked.size);
    screen.fact("layouts", Json::list(&kept, Choice::json));
    screen.fact("left_out", all.len() - kept.len());
    screen.heading(format!("Layouts of {}", asked.words()));
    print_table(&kept, screen);
    screen.gap();
    match all.len() - kept.len() {
        0 => {}
        left => screen.line(format!("  {left} more with {}", ALL.name)),
    }
    Ok(Outcome::Done)
}

/// An admissible layout of a field.
#[derive(Clone, Copy)]
struct Choice {
    field: Field,
    numbers: Numbers,
    /// Of the data that are asked for, else of long files.
    share: ShareOfData,
    /// What the data take that are asked for; too many stripes are nothing.
    taken: Option<Option<Taken>>,
}

impl Choice {
    fn of(layout: Layout, field: Field, size: Option<u64>) -> Option<Choice> {
        let numbers = field.numbers(layout).ok()?;
        let taken = size.map(|size| Taken::by(&numbers, field, size));
        let long = ShareOfData::of_long_files(&numbers, field);
        Some(Choice {
            field,
            numbers,
            share: taken.flatten().map_or(long, |taken| taken.share),
            taken,
        })
    }

    /// Whether it has more data in the bytes of its trays than another.
    fn data(&self, other: &Choice) -> Ordering {
        self.share.order(other.share)
    }

    /// Whether its traffic is a larger part of a plain recovery's.
    fn traffic(&self, other: &Choice) -> Ordering {
        let part = |one: &Choice, beside: &Choice| one.numbers.traffic * beside.numbers.data();
        part(self, other).cmp(&part(other, self))
    }

    /// Those that can take the data first, then by most data, least traffic and most trays at once.
    fn order(&self, other: &Choice) -> Ordering {
        let too_much = |choice: &Choice| matches!(choice.taken, Some(None));
        let at_once = |choice: &Choice| choice.numbers.lost_at_once();
        let by_data = other.data(self).then(self.traffic(other));
        let by_room = too_much(self).cmp(&too_much(other)).then(by_data);
        by_room.then(at_once(other).cmp(&at_once(self)))
    }

    /// Whether none like it has more data: with racks of its size, its E and its layers and, if it
    /// repairs a whole rack at once, doing so too.
    fn has_most_data(&self, all: &[Choice]) -> bool {
        let kind = |Choice { field, numbers, .. }: &Choice| {
            let whole_rack = self.numbers.part == 0 && numbers.part == 0;
            (
                *field,
                numbers.size,
                numbers.errors,
                numbers.layers,
                whole_rack,
            )
        };
        let mut alike = all.iter().filter(|other| kind(other) == kind(self));
        alike.all(|other| other.numbers.dimension <= self.numbers.dimension)
    }

    /// Whether it is at least as good as another with racks of the same size, and better in
    /// something.
    fn beats(&self, other: &Choice) -> bool {
        let (ours, theirs) = (&self.numbers, &other.numbers);
        let weighed = [
            self.data(other),
            other.traffic(self),
            ours.lost_at_once().cmp(&theirs.lost_at_once()),
            ours.errors.cmp(&theirs.errors),
        ];
        ours.size == theirs.size
            && weighed.iter().all(|order| order.is_ge())
            && weighed.iter().any(|order| order.is_gt())
    }

    /// Its row of the table.
    fn row(&self) -> [String; 8] {
        let numbers = &self.numbers;
        [
            numbers.layout.to_string(),
            self.field.number().to_string(),
            numbers.checks.to_string(),
            format!("{:.1} %", self.share.percent()),
            grouped(numbers.layers),
            grouped(numbers.traffic),
            format!("{:.1} %", percent(numbers.traffic, numbers.data())),
            numbers.lost_at_once().to_string(),
        ]
    }

    /// What the data take in it, in words.
    fn taken(&self, taken: Option<Taken>) -> String {
        let Some(taken) = taken else {
            return "too much: more stripes than there are volume numbers".to_string();
        };
        let (stripes, file, crossing) = (
            count(taken.stripes as usize, "stripe"),
            grouped(taken.tray as usize),
            grouped(taken.crossing as usize),
        );
        format!("{stripes}, {file} bytes a tray, {crossing} in its repair")
    }

    /// Its row as a report has it.
    fn json(&self) -> Json {
        let numbers = &self.numbers;
        let taken = self.taken.flatten().map(|taken| {
            Json::object([
                ("stripes", taken.stripes.into()),
                ("tray_bytes", taken.tray.into()),
                ("repair_bytes", taken.crossing.into()),
            ])
        });
        Json::object([
            ("layout", report::layout(numbers.layout)),
            ("field", self.field.number().into()),
            ("lost", numbers.checks.into()),
            ("data_percent", Json::Real(self.share.percent())),
            ("L", numbers.layers.into()),
            ("traffic", numbers.traffic.into()),
            (
                "plain_percent",
                Json::Real(percent(numbers.traffic, numbers.data())),
            ),
            ("at_once", numbers.lost_at_once().into()),
            ("taken", taken.into()),
        ])
    }
}

/// Those with the most data of their kind, if no other beats them.
fn best(all: &[Choice]) -> Vec<Choice> {
    let beaten = |choice: &Choice| all.iter().any(|other| other.beats(choice));
    let best = all
        .iter()
        .filter(|choice| choice.has_most_data(all) && !beaten(choice));
    best.copied().collect()
}

fn print_table(choices: &[Choice], screen: &mut Screen) {
    let titles = [
        "layout", "field", "lost", "data", "L", "traffic", "of plain", "at once",
    ];
    screen.line(line(&titles.map(str::to_string)));
    for choice in choices {
        screen.line(line(&choice.row()));
        if let Some(taken) = choice.taken {
            screen.line(format!("      {}", choice.taken(taken)));
        }
    }
}

/// A line of the table: the layout, then numbers, each at the right of its column.
fn line([layout, field, lost, data, layers, traffic, plain, once]: &[String; 8]) -> String {
    format!(
        "  {layout:<18} {field:>5} {lost:>5} {data:>7} {layers:>6} {traffic:>8} {plain:>9} {once:>8}"
    )
}
