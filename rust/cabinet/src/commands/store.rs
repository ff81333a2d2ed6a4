//! `cabinet store`: a file into a new cabinet.

use super::Command;
use crate::code::field::{in_field, Field, FIELD};
use crate::code::numbers::Numbers;
use crate::disk::{Disk, Handle, PIPE};
use crate::failure::{Failure, Outcome};
use crate::files;
use crate::files::cabinet::Cabinet;
use crate::files::description::{Description, Format};
use crate::files::geometry::many;
use crate::jobs::{self, JOBS};
use crate::storing::spool::Spool;
use crate::storing::store;
use crate::terminal::arguments::{needed, Arguments, Setting};
use crate::terminal::report;
use crate::terminal::screen::Screen;
use crate::terminal::words::{count, grouped};
use gesarumbo::{checksum, Refusal};
use std::io::{self, Read};
use std::path::Path;

const VOLUME: Setting = Setting::with(
    "--volume",
    "N",
    "the first segment's volume number, which its headers carry; each later one has the next",
);
const EXACT: Setting = Setting::plain(
    "--exact",
    "take only a file that fills its stripes of k*L bytes",
);
const REPLACE: Setting = Setting::plain(
    "--replace",
    "take the place of the cabinet that DIR holds already",
);

pub const COMMAND: Command = Command {
    name: "store",
    summary: "store a file of any length in a new cabinet",
    help: HELP,
    settings: &[VOLUME, FIELD, EXACT, REPLACE, JOBS],
    run,
};

const HELP: &str = "\
cabinet store B u k d [E] --volume N [--field N] [--exact] [--replace] INPUT DIR

Stores the file INPUT, or with - what comes by a pipe, in a cabinet of B racks
of u trays, k of them data, with d helper racks in a repair, of which E, 0 or 1,
may send a wrong share. Writes the folder DIR: a file for every tray, and
cabinet.txt, which says for people what the label of every tray says: layout,
field, volume, generation, stripes, and the data's length and checksum.

A stripe, which is one codeword, takes k*L bytes, each as one symbol: in the
field of 257 these are the symbols 0 to 255, with two bytes a symbol. There are
as many stripes as the file needs, one at least, and the last is filled up with
zeros. A tray's file has segments of some stripes, each with a header of its own
and a checksum; segment i has the volume N + i, so that one in a wrong place is
refused (11). With --exact a file that leaves room in its last stripe is refused
(2).

With --replace the new cabinet has the next generation: old trays and new ones
never mix. The files are written beside their places and get their names when
all are whole; cut before the first has its name, DIR holds the old cabinet, cut
later the new one. A store that was cut is done again by the same line. Tray
files of the old cabinet that the new one has no place for are removed, and
others are named. What comes by a pipe is kept in DIR until it is stored.
";

fn run(arguments: &Arguments, disk: &dyn Disk, screen: &mut Screen) -> Result<Outcome, Failure> {
    let (layout, [input, folder]) = arguments.layout_and(["INPUT", "DIR"])?;
    let volume = needed(VOLUME, arguments.number(VOLUME)?)?;
    let field = Field::asked(arguments)?.unwrap_or_default();
    let numbers = Numbers::of(layout, field)?;
    let asked = Asked {
        numbers,
        volume,
        is_exact: arguments.has(EXACT),
        replaces: arguments.has(REPLACE),
        jobs: jobs::asked(arguments)?,
    };
    let (input, folder) = (Path::new(input), Path::new(folder));
    if input != Path::new(PIPE) {
        let (file, length) = files::open_existing(disk, input)?;
        asked.judge(input, length)?;
        let mut data = Input { file, at: 0 };
        let sum = summed(&mut data, length).map_err(Failure::file(input))?;
        return asked.store(disk, &mut data, length, sum, folder, screen);
    }
    let (mut data, is_new) = Spool::take(disk, folder, asked.replaces)?;
    let (length, sum) = (data.length, data.checksum);
    let stored = asked.judge(input, length);
    let stored = stored.and_then(|()| asked.store(disk, &mut data, length, sum, folder, screen));
    drop(data);
    if stored.is_err() && is_new {
        // Nothing is in it, and where it is not empty all the same, it stays.
        let _ = disk.remove_folder(folder);
    }
    stored
}

/// What the command line asks for.
struct Asked {
    numbers: Numbers,
    volume: u32,
    is_exact: bool,
    replaces: bool,
    jobs: usize,
}

impl Asked {
    /// Lets the library's rule judge the length, where only whole stripes are taken.
    fn judge(&self, input: &Path, length: u64) -> Result<(), Failure> {
        let room = self.numbers.data() as u64;
        match self.is_exact && (length == 0 || !length.is_multiple_of(room)) {
            false => Ok(()),
            true => {
                let (input, bytes) = (input.display(), count(length as usize, "byte"));
                let about = format!("{input}: {bytes}, a stripe takes {room}");
                Err(Failure::refused(about)(Refusal::Length))
            }
        }
    }

    /// Stores data of this length and checksum.
    fn store(
        &self,
        disk: &dyn Disk,
        data: &mut dyn Read,
        length: u64,
        sum: u64,
        folder: &Path,
        screen: &mut Screen,
    ) -> Result<Outcome, Failure> {
        let (numbers, room) = (&self.numbers, self.numbers.data() as u64);
        let description = described(numbers, self.volume, length, sum);
        if description.last_volume().is_none() || u64::from(description.stripes) * room < length {
            return Err(Failure::Usage(description.too_many()));
        }
        let mut cabinet = Cabinet::new(disk, folder, description)?;
        cabinet.jobs = self.jobs;
        let stored = in_field!(numbers.field, store(cabinet, data, self.replaces, screen))?;
        let cabinet = Cabinet::new(disk, folder, stored)?;
        report(&cabinet, length, screen);
        Ok(Outcome::Done)
    }
}

/// The checksum of the data, which every segment's checksum starts from; they are read again to be
/// stored.
fn summed(data: &mut Input, length: u64) -> io::Result<u64> {
    let mut room = vec![0; 1 << 16];
    let mut sum = 0;
    while data.at < length {
        let read = data.read(&mut room)?;
        if read == 0 {
            break;
        }
        let left = usize::try_from(length + read as u64 - data.at).unwrap_or(read);
        sum = checksum(sum, &room[..read.min(left)]);
    }
    data.at = 0;
    Ok(sum)
}

/// The description of a cabinet with these data; its generation comes later.
fn described(numbers: &Numbers, volume: u32, length: u64, sum: u64) -> Description {
    let stripes = length.div_ceil(numbers.data() as u64).max(1);
    Description {
        format: Format::Second,
        layout: numbers.layout,
        field: numbers.field,
        volume,
        generation: 0,
        stripes: u32::try_from(stripes).unwrap_or(u32::MAX),
        many: many(numbers.layers, numbers.field.width()),
        length: Some(length),
        checksum: Some(sum),
    }
}

/// A file that is read from its beginning on.
struct Input {
    file: Box<dyn Handle>,
    at: u64,
}

impl Read for Input {
    fn read(&mut self, out: &mut [u8]) -> io::Result<usize> {
        let read = self.file.read_at(self.at, out)?;
        self.at += read as u64;
        Ok(read)
    }
}

fn report(cabinet: &Cabinet, stored: u64, screen: &mut Screen) {
    let (numbers, stripes) = (&cabinet.numbers, cabinet.description.stripes);
    let room = numbers.data() as u64 * u64::from(stripes);
    screen.fact("cabinet", report::cabinet(cabinet));
    screen.fact("bytes", stored);
    screen.fact("room", room);
    screen.line(format!(
        "  {} stored, {} fit: {} added",
        count(stored as usize, "byte"),
        grouped(room as usize),
        count((room - stored) as usize, "zero")
    ));
    let images = match stripes {
        1 => format!("images of {} symbols", numbers.layers),
        _ => {
            let segments = cabinet.geometry.segments() as usize;
            format!("files of {}", count(segments, "segment"))
        }
    };
    screen.line(format!(
        "  {} {images}: trays 0 to {} hold data, {} to {} parity",
        numbers.trays,
        numbers.dimension - 1,
        numbers.dimension,
        numbers.trays - 1
    ));
}
