//! `cabinet inspect`: tray files in words.

use super::Command;
use crate::code::field::{in_field, Field};
use crate::code::symbol::Symbol;
use crate::disk::{folder_of, read_part, Disk, Entry, Handle};
use crate::failure::{Failure, Outcome};
use crate::files;
use crate::files::cabinet::Cabinet;
use crate::files::census::{Census, TrayFile};
use crate::files::description::{self, Description, Format};
use crate::files::found::Found;
use crate::files::geometry::HEADER;
use crate::files::header::Header;
use crate::files::label::{Label, SIZE};
use crate::files::segment::Segment;
use crate::terminal::arguments::Arguments;
use crate::terminal::json::Json;
use crate::terminal::report;
use crate::terminal::screen::{Paint, Screen};
use crate::terminal::words::count;
use gesarumbo::{Layout, Tray};
use std::path::Path;

pub const COMMAND: Command = Command {
    name: "inspect",
    summary: "say what tray files are, and whether they are handed out",
    help: HELP,
    settings: &description::SETTINGS,
    run,
};

const HELP: &str = "\
cabinet inspect FILE..

Puts the label and the first header of each tray file into words and says
whether the library takes the headers of all segments as live ones of one tray
and their checksums are right, or on which ground and from which stripe on not.
Expected is what the settings say, else what the other trays' labels or
cabinet.txt beside the file say, else what the file itself claims by its label
or its first header (edition 2: the field of 257). A label that cannot be read
and a file that is too long are named (65), also where all segments are handed
out. The first file that is refused or cannot be read decides the exit status.
";

/// A layout that is admissible in either field: what an image is held against whose own layout is
/// not.
const ANY: Layout = Layout::new(2, 1, 1, 1);

fn run(arguments: &Arguments, disk: &dyn Disk, screen: &mut Screen) -> Result<Outcome, Failure> {
    let mut ended = Ok(Outcome::Done);
    let mut files = Vec::new();
    for name in arguments.some_words("FILE")? {
        let look = |screen: &mut Screen| inspect(disk, Path::new(name), arguments, screen);
        let (one, facts) = screen.apart(look);
        files.push(Json::Object(
            [report::head("inspect", &one), facts].concat(),
        ));
        ended = ended.and(one);
    }
    screen.fact("files", Json::List(files));
    ended
}

/// A tray file as it was opened.
struct Opened {
    file: Box<dyn Handle>,
    entry: Entry,
    label: Option<Label>,
    /// Whether the file begins with a label, damaged or not.
    begins_with_one: bool,
    /// The first header, after the label if there is one.
    header: Option<Header>,
}

fn inspect(
    disk: &dyn Disk,
    path: &Path,
    arguments: &Arguments,
    screen: &mut Screen,
) -> Result<Outcome, Failure> {
    screen.heading(path.display().to_string());
    screen.fact("file", report::path(path));
    let opened = open(disk, path).inspect_err(|failure| {
        let words = screen.paint(Paint::Bad, "cannot be read");
        screen.line(format!("  {words}: {failure}"));
    })?;
    describe(&opened, screen);
    let expected = expected(disk, path, arguments, &opened)?;
    if let Some(label) = opened
        .label
        .filter(|label| label.cabinet != expected.of_folder)
    {
        let words = match label.cabinet.generation == expected.of_folder.generation {
            true => "its label is of another cabinet than the folder's".to_string(),
            false => format!(
                "its label is of generation {}, the folder's cabinet has {}",
                label.cabinet.generation, expected.of_folder.generation
            ),
        };
        return Err(refused(
            &words,
            Failure::Contents(format!("{}: {words}", path.display())),
            screen,
        ));
    }
    in_field!(
        expected.cabinet.field,
        look(disk, path, opened, &expected.cabinet, screen)
    )
}

fn open(disk: &dyn Disk, path: &Path) -> Result<Opened, Failure> {
    let (file, _) = files::open_existing(disk, path)?;
    let entry = file.entry().map_err(Failure::file(path))?;
    let block = read_part(&*file, 0, SIZE).map_err(Failure::file(path))?;
    let label = Label::parse(&block);
    let after = read_part(&*file, SIZE as u64, HEADER).map_err(Failure::file(path))?;
    let is_header = |bytes: &[u8]| Header::of(bytes).is_some_and(|header| header.is_whole());
    let begins_with_one =
        label.is_some() || begins_as_one(&block) || (!is_header(&block) && is_header(&after));
    let header = if begins_with_one { after } else { block };
    Ok(Opened {
        file,
        entry,
        label,
        begins_with_one,
        header: Header::of(&header),
    })
}

/// Whether a block is a label that was damaged: most of it is text.
fn begins_as_one(block: &[u8]) -> bool {
    let is_text = |byte: &&u8| byte.is_ascii_graphic() || b" \n".contains(byte);
    block.len() == SIZE && 2 * block.iter().filter(is_text).count() > SIZE
}

/// Reads all segments, and says whether they are handed out.
fn look<S: Symbol>(
    disk: &dyn Disk,
    path: &Path,
    opened: Opened,
    expected: &Description,
    screen: &mut Screen,
) -> Result<Outcome, Failure> {
    let mut cabinet = Cabinet::new(disk, folder_of(path), *expected)?;
    let (is_labelled, length) = (opened.label.is_some(), opened.entry.length);
    let claimed = opened.header.as_ref().map(Header::tray);
    let tray = claimed.filter(|tray| (tray.number() as usize) < cabinet.numbers.trays);
    let tray = tray.unwrap_or(Tray::new(0));
    let place = tray.number() as usize;
    cabinet.trays[place] = Some(TrayFile::alone(tray, path, opened.file, opened.entry));
    for number in 0..cabinet.geometry.segments() {
        let segment = Segment::<S>::read(&cabinet, number, &|other| other == tray)?;
        let place = cabinet.place(segment.stripes.start);
        match segment.found(tray) {
            Found::Live => {}
            found => {
                let words = found.why_not().unwrap_or_default();
                let failure = found.failure(path).at(&place);
                return Err(refused(&format!("{place}{words}"), failure, screen));
            }
        }
    }
    let words = screen.paint(Paint::Good, "handed out");
    let stripes = match expected.stripes {
        1 => String::new(),
        stripes => format!(", {}", count(stripes as usize, "stripe")),
    };
    screen.line(format!("  answer    {words} as live tray {tray}{stripes}"));
    screen.fact("live_tray", tray.number());
    let is_long = length > cabinet.geometry.end();
    match expected.format {
        Format::Second if !is_labelled => Err(flaw(path, "its label cannot be read", screen)),
        Format::Second if is_long => {
            let words = "it is too long: bytes follow its last segment";
            Err(flaw(path, words, screen))
        }
        _ => Ok(Outcome::Done),
    }
}

/// Says what is wrong with a file that is handed out.
fn flaw(path: &Path, words: &str, screen: &mut Screen) -> Failure {
    let painted = screen.paint(Paint::Warning, words);
    screen.line(format!("  but       {painted}"));
    Failure::Contents(format!("{}: {words}", path.display()))
}

/// Says why a file is not handed out.
fn refused(words: &str, failure: Failure, screen: &mut Screen) -> Failure {
    let words = screen.paint(Paint::Bad, words);
    screen.line(format!("  answer    {words}"));
    failure
}

fn describe(opened: &Opened, screen: &mut Screen) {
    screen.fact("length", opened.entry.length);
    screen.fact("label", opened.label.as_ref().map(label_json));
    screen.fact("header", opened.header.as_ref().map(Header::json));
    let bytes = count(opened.entry.length as usize, "byte");
    screen.line(format!("  length    {bytes}"));
    match &opened.label {
        Some(Label { cabinet, tray }) => screen.line(format!(
            "  label     tray {tray} of generation {}, {}",
            cabinet.generation,
            count(cabinet.stripes as usize, "stripe")
        )),
        None if opened.begins_with_one => {
            let words = screen.paint(Paint::Warning, "cannot be read");
            screen.line(format!("  label     {words}"));
        }
        None => {}
    }
    match &opened.header {
        None => screen.line("  header    none: too few bytes"),
        Some(header) => header
            .words()
            .iter()
            .for_each(|words| screen.line(format!("  {words}"))),
    }
}

fn label_json(label: &Label) -> Json {
    let mut fields = report::description(&label.cabinet);
    fields.push(("tray", label.tray.number().into()));
    Json::Object(fields)
}

/// What is expected of a file, and of its folder.
struct Expected {
    of_folder: Description,
    cabinet: Description,
}

/// What this file must be.
fn expected(
    disk: &dyn Disk,
    path: &Path,
    arguments: &Arguments,
    opened: &Opened,
) -> Result<Expected, Failure> {
    let claimed = opened.header.as_ref();
    let claimed = claimed.and_then(|header| claimed_by(header, opened.entry.length));
    let folder = folder_of(path);
    let census = Census::take(disk, folder)?;
    let beside = match (census.agreed(), census.described) {
        (Ok(Some(agreed)), _) => Some(agreed),
        // Where it cannot be told which cabinet the folder's is, the file speaks for itself.
        (Err(_), _) => None,
        (Ok(None), Ok(described)) => described,
        (Ok(None), Err(_)) if Description::of_settings(arguments)?.is_some() => None,
        (Ok(None), Err(failure)) => return Err(failure),
    };
    let own = opened.label.map(|label| label.cabinet);
    let named = Description::of_settings(arguments)?.filter(|_| own.is_none());
    let any = Description::first(ANY, Field::default(), 0);
    let of_folder = beside.or(own).or(claimed).or(named).unwrap_or(any);
    Ok(Expected {
        of_folder,
        cabinet: of_folder.with_settings(arguments)?,
    })
}

/// What an image claims whose layout is admissible, in a file of the first format of this length: as
/// many stripes as there are images in it.
fn claimed_by(header: &Header, length: u64) -> Option<Description> {
    let size = header.image_size()? as u64;
    let first = header.claimed();
    let stripes = u32::try_from(length / size).ok()?.max(1);
    let all = Description { stripes, ..first };
    Some(all.last_volume().map_or(first, |_| all))
}
