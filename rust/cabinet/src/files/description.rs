//! What a cabinet is: layout, field, volumes, generation, stripes, and length and checksum of its
//! data. In the second format every tray's label says it and `cabinet.txt` is a copy for people; in
//! the first format `cabinet.txt` alone says it. It is never taken from the images' headers: a
//! factory-reset tray names a layout and volume too.

use super::geometry::many;
use super::label::with_check;
use crate::code::field::Field;
use crate::code::layout;
use crate::disk::Disk;
use crate::failure::Failure;
use crate::files;
use crate::jobs::JOBS;
use crate::terminal::arguments::{Arguments, Setting};
use crate::terminal::words::{count, grouped};
use gesarumbo::{checksum, Layout};
use std::path::Path;
use std::str::Lines;

pub const LAYOUT: Setting = Setting::with(
    "--layout",
    "B,u,k,d[,E]",
    "the layout expected, in place of that in the labels",
);
pub const VOLUME: Setting = Setting::with(
    "--volume",
    "N",
    "the first segment's volume, in place of that in the labels",
);
pub const FIELD: Setting = Setting::with(
    "--field",
    "N",
    "the field expected, 256 or 257, in place of that in the labels",
);
pub const STRIPES: Setting = Setting::with(
    "--stripes",
    "N",
    "the number of stripes, in place of that in the labels",
);

/// The settings in place of a description, or of a part of it.
pub const SETTINGS: [Setting; 4] = [LAYOUT, VOLUME, FIELD, STRIPES];

/// The same with that of the threads.
pub const SETTINGS_AND_JOBS: [Setting; 5] = [JOBS, LAYOUT, VOLUME, FIELD, STRIPES];

/// The description's file.
pub const NAME: &str = "cabinet.txt";

/// How tray files are written.
#[derive(Clone, Copy, PartialEq, Eq, Debug)]
pub enum Format {
    /// An image of document 01 for each stripe, and nothing else.
    First,
    /// A label, then segments with checksums.
    Second,
}

/// What the trays of a cabinet must be, and what they hold.
#[derive(Clone, Copy, PartialEq, Eq, Debug)]
pub struct Description {
    pub format: Format,
    pub layout: Layout,
    pub field: Field,
    /// The volume of the first segment; each later one has the next.
    pub volume: u32,
    /// Counts the stores in a folder; 0 in the first format.
    pub generation: u64,
    /// One or more.
    pub stripes: u32,
    /// Stripes of a segment.
    pub many: u32,
    /// Bytes of data. Where nothing is said of it, as in descriptions of one stripe without this
    /// line, the data fill the stripes.
    pub length: Option<u64>,
    /// The data's checksum.
    pub checksum: Option<u64>,
}

impl Description {
    /// A description of the first format with what every one has.
    pub fn first(layout: Layout, field: Field, volume: u32) -> Description {
        Description {
            format: Format::First,
            layout,
            field,
            volume,
            generation: 0,
            stripes: 1,
            many: 1,
            length: None,
            checksum: None,
        }
    }

    /// This description with what the settings say in its place.
    pub fn with_settings(self, arguments: &Arguments) -> Result<Description, Failure> {
        let layout = asked_layout(arguments)?.unwrap_or(self.layout);
        let field = Field::asked(arguments)?.unwrap_or(self.field);
        let layers = field.numbers(layout).map_or(0, |numbers| numbers.layers);
        let is_other = layout != self.layout || field != self.field;
        let expected = Description {
            layout,
            field,
            volume: arguments.number(VOLUME)?.unwrap_or(self.volume),
            stripes: arguments.number(STRIPES)?.unwrap_or(self.stripes),
            many: match self.format {
                Format::Second if is_other && layers > 0 => many(layers, field.width()),
                _ => self.many,
            },
            ..self
        };
        match expected.last_volume() {
            None => Err(Failure::Usage(expected.too_many())),
            Some(_) if self.format == Format::Second && expected.stripes > self.stripes => {
                let stripes = count(self.stripes as usize, "stripe");
                let words = format!("{}: the labels say {stripes}", STRIPES.name);
                Err(Failure::Usage(words))
            }
            Some(_) => Ok(expected),
        }
    }

    /// What the settings say where nothing else does, of the first format; field and stripes need
    /// not be named.
    pub fn of_settings(arguments: &Arguments) -> Result<Option<Description>, Failure> {
        let volume: Option<u32> = arguments.number(VOLUME)?;
        match (asked_layout(arguments)?, volume) {
            (Some(layout), Some(volume)) => {
                let named = Description::first(layout, Field::default(), volume);
                named.with_settings(arguments).map(Some)
            }
            _ => Ok(None),
        }
    }

    /// The description in a folder's `cabinet.txt`, if it has one.
    pub fn of(disk: &dyn Disk, folder: &Path) -> Result<Option<Description>, Failure> {
        let path = folder.join(NAME);
        let Some(bytes) = files::read(disk, &path).map_err(Failure::file(&path))? else {
            return Ok(None);
        };
        let unreadable =
            || Failure::Contents(format!("{}: no description of a cabinet", path.display()));
        Description::parse(&bytes).map(Some).ok_or_else(unreadable)
    }

    /// The description as `cabinet.txt` has it.
    pub fn bytes(&self) -> Vec<u8> {
        match self.format {
            Format::First => self.lines().into_bytes(),
            Format::Second => with_check(self.lines().trim_end()),
        }
    }

    /// A line for each thing.
    pub fn lines(&self) -> String {
        let numbers = layout::written(self.layout);
        let numbers: Vec<String> = numbers.iter().map(u32::to_string).collect();
        let (layout, volume, stripes) = (numbers.join(" "), self.volume, self.stripes);
        let length = self.length.unwrap_or_default();
        if self.format == Format::First {
            let field = match self.field {
                Field::Of256 => String::new(),
                other => format!("field {}\n", other.number()),
            };
            let length = match self.length {
                None => String::new(),
                Some(length) => format!("stripes {stripes}\nlength {length}\n"),
            };
            return format!("layout {layout}\nvolume {volume}\n{field}{length}");
        }
        let (field, generation, many) = (self.field.number(), self.generation, self.many);
        let checksum = self.checksum.unwrap_or_default();
        format!(
            "cabinet format 2\nlayout {layout}\nfield {field}\nvolume {volume}\n\
             generation {generation}\nstripes {stripes}\nsegment {many}\nlength {length}\n\
             checksum {checksum:016x}\n"
        )
    }

    pub fn parse(bytes: &[u8]) -> Option<Description> {
        let text = str::from_utf8(bytes).ok()?;
        match parse_second(text) {
            Some((found, _)) => (found.bytes() == bytes).then_some(found),
            None => parse_first(text),
        }
    }

    /// The last segment's volume, if there are stripes and volumes enough for them.
    pub fn last_volume(&self) -> Option<u32> {
        let segments = self.stripes.div_ceil(self.many.max(1));
        self.volume.checked_add(segments.checked_sub(1)?)
    }

    /// What is wrong where there is no last volume.
    pub fn too_many(&self) -> String {
        match self.stripes {
            0 => "a cabinet has one stripe or more".to_string(),
            stripes => format!(
                "{} from volume {} on: volumes end at {}",
                count(stripes as usize, "stripe"),
                self.volume,
                u32::MAX
            ),
        }
    }

    /// Layout and field in words.
    pub fn name(&self) -> String {
        self.field.named(self.layout)
    }

    /// Where the checksums of its segments start: a segment of any other cabinet has a wrong one.
    pub fn seed(&self) -> u64 {
        checksum(0, self.lines().as_bytes())
    }

    /// What tells this cabinet from others, in a line.
    pub fn key(&self) -> String {
        let (name, volume, stripes) = (self.name(), self.volume, self.stripes);
        let (generation, checksum) = (self.generation, self.checksum.unwrap_or_default());
        format!("{name} volume {volume} stripes {stripes} generation {generation} {checksum:016x}")
    }

    /// The description in words.
    pub fn words(&self) -> String {
        format!("Cabinet {}, {}", self.name(), self.contents())
    }

    /// The same without layout and field.
    pub fn contents(&self) -> String {
        let volume = self.volume;
        let bytes = self.length.map(|length| count(length as usize, "byte"));
        let bytes = bytes.map(|bytes| format!(", {bytes}"));
        let bytes = bytes.unwrap_or_default();
        let stripes = grouped(self.stripes as usize);
        match (self.stripes, self.last_volume()) {
            (2.., Some(last)) if last > volume => {
                format!("volumes {volume} to {last}: {stripes} stripes{bytes}")
            }
            (2.., _) => format!("volume {volume}: {stripes} stripes{bytes}"),
            _ => format!("volume {volume}"),
        }
    }
}

/// The lines of a description of the first format.
fn parse_first(text: &str) -> Option<Description> {
    let mut lines = text.lines().peekable();
    let layout = numbers_after("layout", lines.next()?)?;
    let volume = number_after("volume", lines.next()?)?;
    let field = match lines.next_if(|line| line.starts_with("field")) {
        None => Field::default(),
        Some(line) => Field::with(number_after("field", line)?)?,
    };
    let mut description = Description::first(layout::of(&layout)?, field, volume);
    if let Some(line) = lines.next() {
        description.stripes = number_after("stripes", line)?;
        description.length = Some(number_after("length", lines.next()?)?);
    }
    description.last_volume()?;
    lines.next().is_none().then_some(description)
}

/// The lines of a description of the second format, and those after them.
pub fn parse_second(text: &str) -> Option<(Description, Lines<'_>)> {
    let mut lines = text.lines();
    lines.next().filter(|line| *line == "cabinet format 2")?;
    let layout = numbers_after("layout", lines.next()?)?;
    let description = Description {
        format: Format::Second,
        layout: layout::of(&layout)?,
        field: Field::with(number_after("field", lines.next()?)?)?,
        volume: number_after("volume", lines.next()?)?,
        generation: number_after("generation", lines.next()?)?,
        stripes: number_after("stripes", lines.next()?)?,
        many: number_after("segment", lines.next()?)?,
        length: Some(number_after("length", lines.next()?)?),
        checksum: Some(checksum_after(lines.next()?)?),
    };
    description.last_volume().filter(|_| description.many > 0)?;
    Some((description, lines))
}

fn checksum_after(line: &str) -> Option<u64> {
    u64::from_str_radix(line.strip_prefix("checksum ")?, 16).ok()
}

/// The numbers of a line that begins with a name.
fn numbers_after<T: std::str::FromStr>(name: &str, line: &str) -> Option<Vec<T>> {
    let rest = line.strip_prefix(name)?.strip_prefix(' ')?;
    rest.split(' ').map(|word| word.parse().ok()).collect()
}

/// The number of a line that begins with a name.
fn number_after<T: std::str::FromStr + Copy>(name: &str, line: &str) -> Option<T> {
    match numbers_after(name, line)?[..] {
        [number] => Some(number),
        _ => None,
    }
}

/// The layout in the settings.
fn asked_layout(arguments: &Arguments) -> Result<Option<Layout>, Failure> {
    let words = || format!("{} needs the numbers B,u,k,d or B,u,k,d,E", LAYOUT.name);
    let of = |list: Vec<u32>| layout::of(&list).ok_or_else(|| Failure::Usage(words()));
    arguments.list(LAYOUT)?.map(of).transpose()
}
