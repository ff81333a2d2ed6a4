//! `cabinet get`: the data back, as they were stored.

use super::Command;
use crate::code::field::in_field;
use crate::code::symbol::{is_zero, to_data, Symbol};
use crate::disk::{folder_of, Disk, Kind, PIPE};
use crate::failure::{Failure, Outcome};
use crate::files::cabinet::Cabinet;
use crate::files::description;
use crate::files::draft::{self, Draft};
use crate::files::erasures::{Erasures, INSIST};
use crate::files::faults::Faults;
use crate::files::mend::{mend_as, Held, Mended};
use crate::files::output;
use crate::files::segment::{with_segment, Segment};
use crate::files::survey::Unused;
use crate::jobs::JOBS;
use crate::terminal::arguments::{Arguments, Setting};
use crate::terminal::screen::{Paint, Screen};
use crate::terminal::words::count;
use crate::terminal::{progress, report};
use gesarumbo::checksum;
use std::io::{self, Write};
use std::path::Path;

const ERASE: Setting = Setting::with(
    "--erase",
    "a,b:S,..",
    "do not use these trays, live or not; b only in stripe S, or stripes S-T, with --insist",
);
const REPLACE: Setting = Setting::plain("--replace", "write over FILE if it is there");
const LENGTH: Setting = Setting::with(
    "--length",
    "N",
    "the length of the data, in place of that in the labels",
);

pub const COMMAND: Command = Command {
    name: "get",
    summary: "give back the data, exactly as they were stored",
    help: HELP,
    settings: &[
        ERASE,
        INSIST,
        LENGTH,
        REPLACE,
        JOBS,
        description::LAYOUT,
        description::VOLUME,
        description::FIELD,
        description::STRIPES,
    ],
    run,
};

const HELP: &str = "\
cabinet get DIR FILE [--replace] [--erase a,b:S,.. [--insist]] [--length N]

Writes the data of DIR to FILE, exactly as long as they were. Trays that are
absent, unreadable, refused or of another generation are done without: any k
trays of a stripe will do. Every stripe is put right by itself, wherever code
and checksums can: trays with a wrong checksum are left out first, then the code
finds one more. What was wrong is named, tray by tray with its stripes (17); the
data are right all the same. They must have the checksum that the labels say,
and no FILE is written if they have not (65), or if a stripe cannot be put right
(5, 8). Where nothing was left to hold them against, which is so only in
cabinets of the first format with just k trays, it says so (16). FILE lies
outside of DIR, and is written over only with --replace; no tray is changed.

Data with a symbol that is no byte, 256 in the field of 257, are not written
(65).

With - for FILE the data go to standard output, and all words to standard error.
What went out cannot be called back: the trays are read twice, and nothing goes
out before all data are known to be right.
";

fn run(arguments: &Arguments, disk: &dyn Disk, screen: &mut Screen) -> Result<Outcome, Failure> {
    let [folder, file] = arguments.words(["DIR", "FILE"])?;
    let named = Erasures::asked(arguments, ERASE)?;
    let cabinet = Cabinet::find(disk, folder, arguments)?;
    named.judge(&cabinet)?;
    let length = length(&cabinet, arguments)?;
    let file = Path::new(file);
    let mut asked = Asked {
        named,
        length,
        file,
    };
    if file == Path::new(PIPE) {
        screen.give_way();
        return in_field!(
            cabinet.description.field,
            to_pipe(&cabinet, &mut asked, screen)
        );
    }
    if is_in(disk, file, cabinet.folder()) {
        let words = "is among the cabinet's own files; name a place outside of its folder";
        return Err(Failure::Usage(format!("{}: {words}", file.display())));
    }
    output::guard(disk, file)?;
    let there = disk.look(file).map_err(Failure::file(file))?;
    let is_there = there.is_some_and(|entry| entry.kind == Kind::File);
    if is_there && !arguments.has(REPLACE) {
        let words = "a file is there already (see --replace)";
        return Err(Failure::File(format!("{}: {words}", file.display())));
    }
    in_field!(
        cabinet.description.field,
        to_file(&cabinet, &mut asked, screen)
    )
}

/// What the command line asks for.
struct Asked<'a> {
    named: Erasures,
    length: u64,
    file: &'a Path,
}

/// Whether a file lies in a folder, or would: there it could take a tray's place.
fn is_in(disk: &dyn Disk, file: &Path, folder: &Path) -> bool {
    match (disk.canonical(folder_of(file)), disk.canonical(folder)) {
        (Ok(parent), Ok(folder)) => parent == folder,
        _ => false,
    }
}

/// How many bytes are given back: no more than the stripes hold.
fn length(cabinet: &Cabinet, arguments: &Arguments) -> Result<u64, Failure> {
    let room = cabinet.numbers.data() as u64 * u64::from(cabinet.description.stripes);
    let words = |length: u64| {
        let bytes = count(length as usize, "byte");
        format!("{bytes} of data: the stripes hold only {room}")
    };
    match (arguments.number(LENGTH)?, cabinet.description.length) {
        (Some(length), _) if length > room => Err(Failure::Usage(format!(
            "{}: {}",
            LENGTH.name,
            words(length)
        ))),
        (None, Some(length)) if length > room => Err(Failure::Contents(words(length))),
        (asked, described) => Ok(asked.or(described).unwrap_or(room)),
    }
}

/// Where data go.
enum Sink<'d> {
    /// Nowhere: they are only looked at.
    Nowhere,
    File(Draft<'d>),
    Pipe(Box<dyn Write>),
}

impl Sink<'_> {
    fn write(&mut self, data: &[u8]) -> Result<(), Failure> {
        match self {
            Sink::Nowhere => Ok(()),
            Sink::File(draft) => draft.write(data),
            Sink::Pipe(out) => out.write_all(data).map_err(broken),
        }
    }

    /// Brings all that was written to where it goes.
    fn finish(self) -> Result<(), Failure> {
        match self {
            Sink::Nowhere => Ok(()),
            Sink::File(draft) => draft::publish(vec![draft]),
            Sink::Pipe(mut out) => out.flush().map_err(broken),
        }
    }
}

fn broken(error: io::Error) -> Failure {
    Failure::File(format!("standard output: {error}"))
}

/// The data as far as they are written.
struct Getting<'d> {
    sink: Sink<'d>,
    left: u64,
    /// Of what is written.
    checksum: u64,
    faults: Faults,
    held: Held,
    /// Why a segment is right only if all data are.
    doubt: Option<Failure>,
    /// How many ways there are then.
    ways: usize,
    /// Whether zeros follow the data, as they were stored.
    is_filled: bool,
}

/// Writes the data to a file.
fn to_file<S: Symbol>(
    cabinet: &Cabinet,
    asked: &mut Asked,
    screen: &mut Screen,
) -> Result<Outcome, Failure> {
    let sink = Draft::begin(cabinet.disk, asked.file, "get", None).map(Sink::File)?;
    let mut getting = get::<S>(cabinet, asked, sink, screen)?;
    while getting.has_another_way(cabinet, asked) {
        asked.named.way += 1;
        drop(getting);
        let sink = Draft::begin(cabinet.disk, asked.file, "get", None).map(Sink::File)?;
        getting = get::<S>(cabinet, asked, sink, &mut Screen::silent())?;
    }
    getting.finish(cabinet, asked, screen)
}

/// Writes the data to a pipe. What went out cannot be called back, so they are looked at first, and
/// then read again.
fn to_pipe<S: Symbol>(
    cabinet: &Cabinet,
    asked: &mut Asked,
    screen: &mut Screen,
) -> Result<Outcome, Failure> {
    let mut seen = get::<S>(cabinet, asked, Sink::Nowhere, screen)?;
    while seen.has_another_way(cabinet, asked) {
        asked.named.way += 1;
        seen = get::<S>(cabinet, asked, Sink::Nowhere, &mut Screen::silent())?;
    }
    seen.judge(cabinet, asked)?;
    let sink = Sink::Pipe(cabinet.disk.output());
    let again = get::<S>(cabinet, asked, sink, &mut Screen::silent())?;
    match again.checksum == seen.checksum {
        true => again.finish(cabinet, asked, screen),
        false => Err(Failure::Contents(
            "the trays changed while they were read: what was written is wrong".to_string(),
        )),
    }
}

/// Goes over all segments.
fn get<'d, S: Symbol>(
    cabinet: &Cabinet<'d>,
    asked: &Asked,
    sink: Sink<'d>,
    screen: &mut Screen,
) -> Result<Getting<'d>, Failure> {
    let mut getting = Getting {
        sink,
        left: asked.length,
        checksum: 0,
        faults: Faults::default(),
        held: Held::Checks,
        doubt: None,
        ways: 1,
        is_filled: true,
    };
    let mut unused = None;
    let mend = with_segment(|segment: &Segment<S>| mend_as(segment, &asked.named));
    cabinet.over(cabinet.segments_from(0), mend, |(segment, mended)| {
        Unused::begin_or_say(&mut unused, &segment, screen);
        let mended = mended?;
        getting.doubt = getting.doubt.take().or(mended.doubt);
        getting.ways = getting.ways.max(mended.ways);
        getting.faults.add(&segment, &mended.stripes);
        getting.write(&segment, &mended.stripes)?;
        progress::segment(cabinet, &segment.stripes, screen);
        Ok(())
    })?;
    getting.faults.add_files(cabinet, &Unused::trays(unused));
    Ok(getting)
}

impl Getting<'_> {
    /// Writes the data of a segment.
    fn write<S: Symbol>(
        &mut self,
        segment: &Segment<S>,
        mended: &[Mended<S>],
    ) -> Result<(), Failure> {
        let room = segment.cabinet.numbers.data();
        for (number, one) in segment.stripes.clone().zip(mended) {
            let here = usize::try_from(self.left).map_or(room, |left| left.min(room));
            let data = bytes(&one.codeword[..here]);
            let place = segment.cabinet.place(number);
            let data = data.map_err(|failure| failure.at(&place))?;
            self.sink.write(&data)?;
            self.checksum = checksum(self.checksum, &data);
            self.left -= data.len() as u64;
            self.held = self.held.min(one.held);
            self.is_filled &= is_zero(&one.codeword[here..room]);
        }
        Ok(())
    }

    /// Compares the checksum of all data, and gives whether they have one.
    fn judge(&self, cabinet: &Cabinet, asked: &Asked) -> Result<bool, Failure> {
        let is_all = cabinet.description.length == Some(asked.length);
        let stored = cabinet.description.checksum.filter(|_| is_all);
        if let (Some(doubt), true) = (
            &self.doubt,
            stored != Some(self.checksum) || !self.is_filled,
        ) {
            return Err(doubt.clone());
        }
        match stored.is_some_and(|stored| stored != self.checksum) {
            false => Ok(stored.is_some()),
            true => Err(Failure::Contents(
                "the data do not have the checksum that they were stored with; no file is written"
                    .to_string(),
            )),
        }
    }

    /// Whether the data are not right, and may be if doubted segments are put right in another way.
    fn has_another_way(&self, cabinet: &Cabinet, asked: &Asked) -> bool {
        self.doubt.is_some()
            && asked.named.way + 1 < self.ways
            && self.judge(cabinet, asked).is_err()
    }

    /// Brings the data to where they go, and says so.
    fn finish(
        self,
        cabinet: &Cabinet,
        asked: &Asked,
        screen: &mut Screen,
    ) -> Result<Outcome, Failure> {
        self.faults.say(cabinet, screen);
        let is_summed = self.judge(cabinet, asked)?;
        let (length, file) = (asked.length, asked.file);
        self.sink.finish()?;
        screen.fact("cabinet", report::cabinet(cabinet));
        screen.fact("file", report::path(file));
        screen.fact("bytes", length);
        screen.fact("held_against", report::held(self.held));
        screen.fact("faults", self.faults.json());
        let bytes = count(length as usize, "byte");
        let place = match file == Path::new(PIPE) {
            true => "standard output".into(),
            false => file.to_string_lossy(),
        };
        screen.line(format!("  {bytes} written to {place}"));
        let is_clear = self.faults.is_empty();
        match (is_summed, self.held, is_clear) {
            (false, Held::Nothing, _) => {
                let words = screen.paint(Paint::Warning, "not tested: no tray to spare");
                screen.line(format!("  {words}"));
                Ok(Outcome::NotTested)
            }
            (_, _, true) => Ok(Outcome::Done),
            (_, _, false) => Ok(Outcome::Healed),
        }
    }
}

/// Symbols of data as bytes; a symbol of 256 is none.
fn bytes<S: Symbol>(data: &[S]) -> Result<Vec<u8>, Failure> {
    let no_byte = |place| format!("the data's symbol {place} is 256, which is no byte of a file");
    to_data(data).map_err(|place| Failure::Contents(no_byte(place)))
}
