//! `cabinet share`: what a helper rack sends.

use super::Command;
use crate::code::field::in_field;
use crate::code::symbol::Symbol;
use crate::disk::Disk;
use crate::failure::{Failure, Outcome};
use crate::files::cabinet::Cabinet;
use crate::files::description;
use crate::files::draft::{self, Draft};
use crate::files::faults::Faults;
use crate::files::mend::mend;
use crate::files::output;
use crate::files::segment::Segment;
use crate::terminal::arguments::{needed, Arguments, Setting};
use crate::terminal::progress;
use crate::terminal::screen::Screen;
use gesarumbo::Rack;
use std::path::Path;

const HOST: Setting = Setting::with("--host", "H", "the rack with the lost trays");
const HELPER: Setting = Setting::with("--helper", "I", "the rack that sends");
const COUNT: Setting = Setting::with("--count", "N", "how many trays are lost, 1 if not given");

pub const COMMAND: Command = Command {
    name: "share",
    summary: "work out what a helper rack sends for a repair",
    help: HELP,
    settings: &[
        HOST,
        HELPER,
        COUNT,
        description::LAYOUT,
        description::VOLUME,
        description::FIELD,
        description::STRIPES,
    ],
    run,
};

const HELP: &str = "\
cabinet share DIR --host H --helper I [--count N] OUT

Works out the share of rack I for a repair in rack H, from the trays of rack I
alone, and writes its L/s symbols to OUT, one byte each and nothing else; in the
field of 257 two bytes each, low byte first. For a repair of N trays at once it
is N shares, one after another. Those of all stripes follow one another. The
file does not say whose share it is: let its name say so.
";

fn run(arguments: &Arguments, disk: &dyn Disk, screen: &mut Screen) -> Result<Outcome, Failure> {
    let [folder, out] = arguments.words(["DIR", "OUT"])?;
    let host = Rack::new(needed(HOST, arguments.number(HOST)?)?);
    let helper = Rack::new(needed(HELPER, arguments.number(HELPER)?)?);
    let count = arguments.number(COUNT)?.unwrap_or(1);
    let (cabinet, out) = (Cabinet::find(disk, folder, arguments)?, Path::new(out));
    output::guard(disk, out)?;
    in_field!(
        cabinet.description.field,
        share(&cabinet, count, [host, helper], out, screen)
    )
}

fn share<S: Symbol>(
    cabinet: &Cabinet,
    count: u32,
    [host, helper]: [Rack; 2],
    out: &Path,
    screen: &mut Screen,
) -> Result<Outcome, Failure> {
    let (numbers, stripes) = (&cabinet.numbers, cabinet.description.stripes);
    let mut draft = Draft::begin(cabinet.disk, out, "share", cabinet.mode())?;
    let (mut sent, mut faults) = (0, Faults::default());
    for number in 0..cabinet.geometry.segments() {
        let shares = of_segment::<S>(cabinet, number, count, [host, helper], &mut faults)?;
        draft.write(&S::to_bytes(&shares))?;
        sent += shares.len();
        progress::segment(cabinet, &cabinet.geometry.stripes_of(number), screen);
    }
    draft::publish(vec![draft])?;
    screen.heading(cabinet.description.words());
    faults.say(cabinet, screen);
    screen.line(format!(
        "  rack {helper} sends {sent} symbols to rack {host}, {} are in its trays",
        numbers.rack() * stripes as usize
    ));
    match faults.is_empty() {
        true => Ok(Outcome::Done),
        false => Ok(Outcome::Healed),
    }
}

/// The shares of all stripes of a segment, from the helper's trays alone. Where one of these has a
/// wrong checksum, all trays are read, and the stripes put right first.
fn of_segment<S: Symbol>(
    cabinet: &Cabinet,
    number: u32,
    count: u32,
    [host, helper]: [Rack; 2],
    faults: &mut Faults,
) -> Result<Vec<S>, Failure> {
    let is_helpers = |tray| cabinet.numbers.rack_of(tray) == helper;
    let mut segment = Segment::<S>::read(cabinet, number, &is_helpers)?;
    let stripes = segment.stripes.clone();
    // The library judges the numbers first, then the rack.
    segment
        .stripe(stripes.start)
        .judge_share(count, host, helper)?;
    segment.judge_rack(helper, &[]).map_err(segment.named())?;
    let mut mended = None;
    if !segment.stripe(stripes.start).rotten().is_empty() {
        segment = Segment::read(cabinet, number, &|_| true)?;
        let right = mend(&segment, &[])?;
        faults.add(&segment, &right);
        mended = Some(right);
    }
    let mut shares = Vec::new();
    for number in stripes.clone() {
        let mut stripe = segment.stripe(number);
        if let Some(mended) = &mended {
            let place = (number - stripes.start) as usize;
            stripe.codeword.clone_from(&mended[place].codeword);
        }
        shares.extend(stripe.share(count, host, helper).map_err(stripe.named())?);
    }
    Ok(shares)
}
