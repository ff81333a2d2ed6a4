//! `cabinet demo`: a cabinet's life in six steps, then one with racks of four and one with a stale
//! share.

use super::{racks_of_four, stale_rack, Command};
use crate::code::field::Field;
use crate::code::numbers::Numbers;
use crate::disk::Disk;
use crate::failure::{Failure, Outcome};
use crate::files::cabinet::Cabinet;
use crate::files::description::{Description, Format};
use crate::files::label::SIZE;
use crate::files::segment::Segment;
use crate::files::{output, remove, survey};
use crate::repair::in_groups::{GroupRepair, Means};
use crate::repair::shares::Shares;
use crate::repair::stripe_repair::judge;
use crate::repair::{spare_path, Repair};
use crate::storing;
use crate::terminal::arguments::{Arguments, Setting};
use crate::terminal::screen::{Paint, Screen};
use crate::terminal::{cabinet_map, traffic};
use gesarumbo::{checksum, Layout, Rack, Tray, DEMONSTRATION};
use std::path::Path;
use std::{env, fs, process};

const KEEP: Setting = Setting::with(
    "--keep",
    "DIR",
    "work in the folder DIR and leave the images there",
);

pub const COMMAND: Command = Command {
    name: "demo",
    summary: "store, lose a tray, refuse a demonstration tray, repair, compare",
    help: HELP,
    settings: &[KEEP],
    run,
};

const HELP: &str = "\
cabinet demo [--keep DIR]

Shows a small cabinet at work, on real tray images in a temporary folder: stores
eight records, loses a tray, meets a factory-reset one and refuses it, repairs
the lost tray in pieces, compares, and shows the traffic saved. Then, in memory,
it repairs a tray of a cabinet with racks of four, in the field of 257, and one
although a rack sends a stale share, and names that rack.
";

const DESCRIPTION: Description = Description {
    format: Format::Second,
    layout: Layout::new(4, 3, 8, 3),
    field: Field::Of256,
    volume: 7,
    generation: 0,
    stripes: 1,
    many: 256,
    length: Some(128),
    checksum: None,
};
const LOST: Tray = Tray::new(4);
const HELPERS: [Rack; 3] = [Rack::new(0), Rack::new(2), Rack::new(3)];

/// Groups done before the repair is broken off.
const BROKEN_OFF: u64 = 3;

/// One record a tray, as long as a tray of this layout.
pub const RECORDS: [&[u8]; 8] = [
    b"Mo 06:00 Cl 0.6\n",
    b"Mo 18:00 Cl 0.7\n",
    b"Tu 06:00 Cl 0.5\n",
    b"Tu 18:00 Cl 0.6\n",
    b"We 06:00 Cl 0.8\n",
    b"We 18:00 Cl 0.6\n",
    b"Th 06:00 Cl 0.7\n",
    b"Th 18:00 Cl 0.6\n",
];

/// What a factory-reset tray comes up with.
const RESET: &[u8] = b"XX 00:00 Cl 9.9\n";

fn run(arguments: &Arguments, disk: &dyn Disk, screen: &mut Screen) -> Result<Outcome, Failure> {
    let [] = arguments.words([])?;
    if let Some(folder) = arguments.value(KEEP) {
        tell(disk, Path::new(folder), screen)?;
        return Ok(Outcome::Done);
    }
    let folder = env::temp_dir().join(format!("cabinet-demo-{}", process::id()));
    fs::create_dir(&folder).map_err(Failure::file(&folder))?;
    let told = tell(disk, &folder, screen);
    let cleared = fs::remove_dir_all(&folder).map_err(Failure::file(&folder));
    told.and(cleared).map(|()| Outcome::Done)
}

/// The eight steps.
fn tell(disk: &dyn Disk, path: &Path, screen: &mut Screen) -> Result<(), Failure> {
    let description = Description {
        checksum: Some(checksum(0, &RECORDS.concat())),
        ..DESCRIPTION
    };
    let cabinet = Cabinet::new(disk, path, description)?;
    introduce(&cabinet.numbers, screen);
    let numbers = cabinet.numbers;
    let stored = store_records(cabinet, screen)?;
    lose_a_tray(disk, path, screen)?;
    meet_a_reset_tray(disk, path, screen)?;
    repair_in_pieces(disk, path, screen)?;
    compare(disk, path, &stored, screen)?;
    screen.gap();
    screen.heading("6. Traffic of the repair");
    traffic::print(&numbers, screen);
    screen.gap();
    racks_of_four::tell(screen)?;
    screen.gap();
    stale_rack::tell(screen)
}

/// The cabinet as it is in its folder.
fn found<'d>(disk: &'d dyn Disk, path: &Path) -> Result<Cabinet<'d>, Failure> {
    Cabinet::find(disk, path, &Arguments::parse(&[], &[])?)
}

fn introduce(numbers: &Numbers, screen: &mut Screen) {
    screen.line(format!(
        "A cabinet of {} racks of {} trays: {} of data, {} of parity, {} symbols each.",
        numbers.racks, numbers.size, numbers.dimension, numbers.checks, numbers.layers
    ));
    screen.line(format!(
        "Any {} trays may be lost. For the repair of one, {} racks send shares.",
        numbers.checks, numbers.helpers
    ));
    screen.gap();
}

fn store_records(cabinet: Cabinet, screen: &mut Screen) -> Result<Vec<u8>, Failure> {
    screen.heading("1. Store eight records, one to a tray");
    for (tray, record) in RECORDS.iter().enumerate() {
        print_record(tray, record, screen);
    }
    let (disk, path) = (cabinet.disk, cabinet.folder().to_path_buf());
    let mut silent = Screen::silent();
    storing::store::<u8>(cabinet, &mut &RECORDS.concat()[..], false, &mut silent)?;
    let cabinet = found(disk, &path)?;
    screen.line(format!(
        "  {}: {} tray images are written",
        cabinet.description.words(),
        cabinet.numbers.trays
    ));
    screen.gap();
    Ok(segment(&cabinet)?.stripe(0).codeword)
}

/// The only segment.
fn segment<'a>(cabinet: &'a Cabinet<'a>) -> Result<Segment<'a, u8>, Failure> {
    cabinet.segment_with(0)
}

fn print_record(tray: usize, record: &[u8], screen: &mut Screen) {
    screen.line(format!(
        "  tray {tray}  {}",
        String::from_utf8_lossy(record).trim_end()
    ));
}

fn lose_a_tray(disk: &dyn Disk, path: &Path, screen: &mut Screen) -> Result<(), Failure> {
    screen.heading(format!("2. Lose tray {LOST}"));
    remove(disk, &found(disk, path)?.image_path(LOST))?;
    let cabinet = found(disk, path)?;
    let kinds = segment(&cabinet)?.kinds();
    cabinet_map::print(&cabinet.numbers, &kinds, screen);
    let margin = survey::margin::<u8>(&cabinet, &kinds)?;
    screen.line(format!(
        "  margin {margin}: any {margin} trays more may be lost"
    ));
    screen.gap();
    Ok(())
}

/// Puts a tray in that is as the factory made it: its header says so, and its label says nothing.
fn reset(cabinet: &Cabinet) -> Result<(), Failure> {
    let image = cabinet.segment_bytes_as(DEMONSTRATION, 0, LOST, RESET)?;
    let bytes = [&[0; SIZE][..], &image].concat();
    output::write_own(cabinet.disk, &cabinet.image_path(LOST), &bytes)
}

fn meet_a_reset_tray(disk: &dyn Disk, path: &Path, screen: &mut Screen) -> Result<(), Failure> {
    screen.heading("3. Meet a factory-reset tray");
    reset(&found(disk, path)?)?;
    let cabinet = found(disk, path)?;
    screen.line(format!(
        "  A new tray stands in for tray {LOST}. It comes up with demonstration contents:"
    ));
    print_record(LOST.number() as usize, RESET, screen);
    let segment = segment(&cabinet)?;
    let Some(why) = segment.found(LOST).why_not() else {
        return Err(Failure::Internal(
            "a demonstration tray was handed out".to_string(),
        ));
    };
    let why = screen.paint(Paint::Warning, &why);
    screen.line(format!("  {why}"));
    screen.line("  Its symbols are not handed out: no record and no repair sees them.");
    cabinet_map::print(&cabinet.numbers, &segment.kinds(), screen);
    screen.gap();
    Ok(())
}

fn repair_in_pieces(disk: &dyn Disk, path: &Path, screen: &mut Screen) -> Result<(), Failure> {
    screen.heading(format!("4. Repair tray {LOST} in pieces"));
    let cabinet = found(disk, path)?;
    let repair = Repair {
        lost: vec![LOST],
        helpers: HELPERS.to_vec(),
    };
    judge::<u8>(&cabinet.numbers, &repair, 0)?;
    screen.line(format!(
        "  Racks 0, 2 and 3 send {} symbols each to rack {}.",
        cabinet.numbers.groups,
        repair.host(&cabinet)
    ));
    let spare = || spare_path(&cabinet, &repair.lost);
    let mut means = Means {
        shares: &mut Shares::OfTrays,
        cards: &[],
    };
    let mut silent = Screen::silent();
    GroupRepair::<u8>::open(&cabinet, &repair, spare(), &mut silent)?.work(
        &mut means,
        0..BROKEN_OFF,
        screen,
    )?;
    screen.line("  The power fails here; the spare is kept, and the repair goes on from it.");
    let mut work = GroupRepair::<u8>::open(&cabinet, &repair, spare(), &mut silent)?;
    let rest = work.position()..cabinet.numbers.groups as u64;
    work.work(&mut means, rest, screen)?;
    work.finish(screen)?;
    screen.gap();
    Ok(())
}

fn compare(
    disk: &dyn Disk,
    path: &Path,
    stored: &[u8],
    screen: &mut Screen,
) -> Result<(), Failure> {
    screen.heading("5. Compare with what was stored");
    let cabinet = found(disk, path)?;
    let stripe = segment(&cabinet)?;
    let stripe = stripe.stripe(0);
    if let Ok(symbols) = stripe.symbols(LOST) {
        print_record(LOST.number() as usize, symbols, screen);
    }
    if !stripe.not_live().is_empty() || stripe.codeword != stored {
        return Err(Failure::Internal(
            "the repaired cabinet differs from the stored one".to_string(),
        ));
    }
    let same = screen.paint(Paint::Good, "the same");
    screen.line(format!(
        "  All {} trays are {same}, symbol by symbol.",
        cabinet.numbers.trays
    ));
    Ok(())
}
