//! `cabinet recover`: trays back from those that are left.

use super::Command;
use crate::code::field::in_field;
use crate::code::symbol::{is_zero, to_data, Symbol};
use crate::disk::Disk;
use crate::failure::{Failure, Outcome};
use crate::files::cabinet::Cabinet;
use crate::files::checkpoint::Checkpoint;
use crate::files::description;
use crate::files::erasures::{Erasures, INSIST};
use crate::files::faults::Faults;
use crate::files::mend::{mend_as, union, Held, Mended, Mending};
use crate::files::rebuild::{Rebuild, Rebuilding};
use crate::files::segment::{with_segment, Segment};
use crate::files::survey::Survey;
use crate::jobs::JOBS;
use crate::terminal::arguments::{Arguments, Setting};
use crate::terminal::screen::{Paint, Screen};
use crate::terminal::words::trays;
use crate::terminal::{progress, report};
use gesarumbo::{checksum, Tray};
use std::collections::BTreeMap;
use std::path::Path;

const ERASE: Setting = Setting::with(
    "--erase",
    "a,b:S,..",
    "write these trays anew too, as the others say they should be; b is doubted only in stripe S, or \
     stripes S-T, with --insist",
);

pub const COMMAND: Command = Command {
    name: "recover",
    summary: "bring back missing trays, and put wrong ones right",
    help: HELP,
    settings: &[
        ERASE,
        INSIST,
        JOBS,
        description::LAYOUT,
        description::VOLUME,
        description::FIELD,
        description::STRIPES,
    ],
    run,
};

const HELP: &str = "\
cabinet recover DIR [--erase a,b:S,.. [--insist]]

Brings back every tray of DIR that is absent, damaged, refused (malformed,
demonstration, of another layout or volume), of another place or of another
generation, and writes every tray anew that holds wrong symbols, a wrong
checksum or a label that cannot be read. Every stripe is put right by itself,
wherever code and checksums can; a tray that is wrong in some stripes still
serves in the others. What was wrong is named (17). Nothing is written if a
stripe cannot be put right (5, 8), if the data do not have the checksum that the
labels say (65), nor where a tray may not be read for another reason than damage
(74). With no tray to write it is a test. Where nothing was
left to test by, it says so (16).

The new files stand beside the old ones until they are whole. A checkpoint,
recover.txt, lets a recovery that was cut go on where it ended; it looks at all
that it has written before. cabinet get gives the data back.
";

/// The checkpoint's file in a cabinet's folder.
pub const NAME: &str = "recover.txt";

/// What the work is called in the names of work files.
const WORK: &str = "recover";

fn run(arguments: &Arguments, disk: &dyn Disk, screen: &mut Screen) -> Result<Outcome, Failure> {
    let [folder] = arguments.words(["DIR"])?;
    let named = Erasures::asked(arguments, ERASE)?;
    let insists = arguments.has(INSIST);
    let cabinet = Cabinet::find(disk, folder, arguments)?;
    named.judge(&cabinet)?;
    in_field!(
        cabinet.description.field,
        recover(&cabinet, &named, insists, screen)
    )
}

/// What a recovery is to do, and what it has found.
struct Recovery<'a> {
    cabinet: &'a Cabinet<'a>,
    named: Erasures,
    faults: Faults,
    held: Held,
    /// Of the data of the stripes examined so far.
    checksum: u64,
    /// Bytes of data that are not examined yet.
    left: u64,
    /// Whether zeros follow the data, as they were stored.
    is_filled: bool,
    /// The segments that only the checksum of all data bears out, and what they are known by.
    doubted: BTreeMap<u32, u64>,
    /// How many ways there are to put these right.
    ways: usize,
}

/// What the stripes of a segment are known by.
fn known_by<S: Symbol>(stripes: &[Mended<S>]) -> u64 {
    let sum = |sum, one: &Mended<S>| checksum(sum, &S::to_bytes(&one.codeword));
    stripes.iter().fold(0, sum)
}

/// Brings back all trays that are missing, wrong or named.
pub fn recover<S: Symbol>(
    cabinet: &Cabinet,
    erasures: &Erasures,
    insists: bool,
    screen: &mut Screen,
) -> Result<Outcome, Failure> {
    let survey = Survey::of::<S>(cabinet, screen)?;
    let named = &erasures.trays();
    for stripe in erasures.starts() {
        judge::<S>(cabinet, &erasures.of(stripe))?;
    }
    let not_named = |(tray, _): &&(Tray, String)| !named.contains(tray);
    if let Some((tray, words)) = survey.closed.iter().find(not_named) {
        let path = cabinet.image_path(*tray);
        return Err(Failure::File(format!(
            "{}: {words}; this is not taken for damage (see --erase)",
            path.display()
        )));
    }
    cabinet.guard_newer(named)?;
    let mut recovery = Recovery::new(cabinet, erasures.clone());
    let mut examined = recovery.examine::<S>();
    while examined.is_err() && recovery.named.way + 1 < recovery.ways {
        let mut named = recovery.named;
        named.way += 1;
        recovery = Recovery::new(cabinet, named);
        examined = recovery.examine::<S>();
    }
    examined?;
    if recovery.held == Held::Nothing && !named.is_empty() && !insists {
        return Err(Failure::Contents(format!(
            "nothing is left to test the others by: {} may hold the only right symbols ({} writes \
             them anew all the same)",
            trays(named),
            INSIST.name
        )));
    }
    let mut erased = union(&survey.damaged(), named);
    recovery.faults.add_files(cabinet, &survey.damaged());
    erased = union(&erased, &recovery.faults.trays());
    recovery.rebuild::<S>(&erased, screen)?;
    recovery.faults.say(cabinet, screen);
    Ok(recovery.report(&erased, screen))
}

/// Lets the library judge the trays that are named: a recovery of these alone, of zeros.
fn judge<S: Symbol>(cabinet: &Cabinet, named: &[Tray]) -> Result<(), Failure> {
    let named = union(named, &[]);
    let mut zeros = vec![S::default(); cabinet.numbers.codeword()];
    let about = format!("recovery of {} trays", named.len());
    (S::CALLS.recover)(cabinet.description.layout, &mut zeros, &named)
        .map_err(Failure::refused(about))
}

impl<'a> Recovery<'a> {
    fn new(cabinet: &'a Cabinet<'a>, named: Erasures) -> Recovery<'a> {
        Recovery {
            cabinet,
            named,
            faults: Faults::default(),
            held: Held::Checks,
            checksum: 0,
            left: cabinet.description.length.unwrap_or(0),
            is_filled: true,
            doubted: BTreeMap::new(),
            ways: 1,
        }
    }

    /// Puts all stripes right once, without writing: which trays are wrong is known before any is
    /// written.
    fn examine<S: Symbol>(&mut self) -> Result<(), Failure> {
        let mut doubt = None;
        let (cabinet, named) = (self.cabinet, self.named.clone());
        let mend = with_segment(|segment: &Segment<S>| mend_as(segment, &named));
        cabinet.over(cabinet.segments_from(0), mend, |(segment, mended)| {
            let mended = mended?;
            self.ways = self.ways.max(mended.ways);
            let stripes = mended.stripes;
            if mended.doubt.is_some() {
                self.doubted.insert(segment.number, known_by(&stripes));
            }
            doubt = doubt.take().or(mended.doubt);
            self.faults.add(&segment, &stripes);
            let held = stripes.iter().map(|one| one.held).min();
            self.held = self.held.min(held.unwrap_or(Held::Checks));
            stripes.iter().for_each(|one| self.sum(&one.codeword));
            Ok(())
        })?;
        let stored = self.cabinet.description.checksum;
        if stored != Some(self.checksum) || !self.is_filled {
            doubt.map_or(Ok(()), Err)?;
        }
        match stored.is_none_or(|stored| stored == self.checksum) {
            true => Ok(()),
            false => Err(Failure::Contents(
                "the data do not have the checksum that they were stored with; no tray is written"
                    .to_string(),
            )),
        }
    }

    /// Takes the checksum of a stripe's data on; a symbol that is no byte is none of data.
    fn sum<S: Symbol>(&mut self, codeword: &[S]) {
        let room = self.cabinet.numbers.data();
        let here = usize::try_from(self.left).map_or(room, |left| left.min(room));
        let data = to_data(&codeword[..here]).unwrap_or_default();
        self.checksum = checksum(self.checksum, &data);
        self.left -= here as u64;
        self.is_filled &= is_zero(&codeword[here..room]);
    }

    /// Writes these trays anew.
    fn rebuild<S: Symbol>(&self, erased: &[Tray], screen: &mut Screen) -> Result<(), Failure> {
        if erased.is_empty() {
            return Ok(());
        }
        let cabinet = self.cabinet;
        let mut rebuild = open::<S>(cabinet, erased, screen)?;
        let first = cabinet.geometry.segment_of(rebuild.next);
        let named = &self.named;
        let mend = with_segment(|segment: &Segment<S>| mend_as(segment, named));
        cabinet.over(cabinet.segments_from(first), mend, |(segment, mended)| {
            let Mending { stripes, doubt, .. } = mended?;
            if let Some(doubt) = doubt {
                let seen = self.doubted.get(&segment.number);
                seen.filter(|seen| **seen == known_by(&stripes))
                    .ok_or(doubt)?;
            }
            write(&mut rebuild, &segment, &stripes, erased)?;
            progress::segment(cabinet, &segment.stripes, screen);
            match rebuild.is_due() {
                true => {
                    let over = segment.stripe(segment.stripes.end - 1).fingerprint();
                    rebuild.save(0, over, &[])
                }
                false => Ok(()),
            }
        })?;
        rebuild.publish()
    }

    fn report(&self, erased: &[Tray], screen: &mut Screen) -> Outcome {
        screen.fact("cabinet", report::cabinet(self.cabinet));
        screen.fact("written", report::trays(erased));
        screen.fact("held_against", report::held(self.held));
        screen.fact("faults", self.faults.json());
        let (words, outcome) = match self.held {
            Held::Nothing => {
                let words = screen.paint(Paint::Warning, "not tested");
                (format!("{words}: no tray to spare"), Outcome::NotTested)
            }
            held => {
                let sound = screen.paint(Paint::Good, "sound");
                let by = match held {
                    Held::Checksums => ", by the checksums of those that were left",
                    _ => "",
                };
                let outcome = match self.faults.is_empty() {
                    true => Outcome::Done,
                    false => Outcome::Healed,
                };
                (format!("all are {sound}{by}"), outcome)
            }
        };
        screen.line(match erased {
            [] => format!("  no tray to bring back; {words}"),
            _ => format!("  brought back: {}; {words}", trays(erased)),
        });
        outcome
    }
}

/// Writes the trays' symbols of all stripes of a segment that are not written yet.
fn write<S: Symbol>(
    rebuild: &mut Rebuild<S>,
    segment: &Segment<S>,
    mended: &[Mended<S>],
    erased: &[Tray],
) -> Result<(), Failure> {
    let layers = segment.cabinet.numbers.layers;
    for (number, one) in segment.stripes.clone().zip(mended) {
        if number >= rebuild.next {
            let symbols = |tray: &Tray| &one.codeword[tray.number() as usize * layers..][..layers];
            rebuild.write(erased.iter().map(symbols))?;
        }
    }
    Ok(())
}

/// The recovery as its checkpoint has it; a new one if there is none, or it is of another.
fn open<'a, S: Symbol>(
    cabinet: &'a Cabinet<'a>,
    erased: &[Tray],
    screen: &mut Screen,
) -> Result<Rebuild<'a, S>, Failure> {
    let (names, key) = (trays(erased), cabinet.description.key());
    let what = || Rebuilding {
        trays: erased.to_vec(),
        work: WORK,
        task: format!("recovery of {names} of {key}"),
        path: cabinet.file(NAME),
    };
    let of_another = |_: &Path| Failure::Contents(String::new());
    let is_of = |task: &str| task == what().task;
    let found = Checkpoint::read(cabinet.disk, &what().path, is_of, of_another);
    if let Ok(Some(checkpoint)) = found {
        if is_same::<S>(cabinet, &checkpoint)? {
            if let Some((rebuild, _)) = Rebuild::go_on(cabinet, what(), &checkpoint)? {
                progress::goes_on(cabinet, rebuild.next, screen);
                return Ok(rebuild);
            }
        }
    }
    Rebuild::begin(cabinet, what())
}

/// Whether the trays of the last stripe are those that it was worked on from.
fn is_same<S: Symbol>(cabinet: &Cabinet, checkpoint: &Checkpoint) -> Result<bool, Failure> {
    let last = checkpoint.last();
    if last >= cabinet.description.stripes {
        return Ok(false);
    }
    let segment = cabinet.segment_with::<S>(last)?;
    Ok(segment.stripe(last).fingerprint() == checkpoint.over)
}
