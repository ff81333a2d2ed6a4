//! A cabinet kept as a folder: one file a tray, each with a label that says what the cabinet is, and
//! one lock, which readers share.

use super::census::{Census, TrayFile};
use super::description::{Description, Format, NAME};
use super::segment::{Raw, Segment};
use super::shape::Shape;
use crate::code::symbol::Symbol;
use crate::disk::{Disk, Hold, Kind, Lock};
use crate::failure::Failure;
use crate::jobs;
use crate::terminal::arguments::Arguments;
use gesarumbo::Tray;
use std::cell::RefCell;
use std::ops::{Deref, Range};
use std::path::Path;

/// Where a cabinet is, and which one is expected there.
pub struct Cabinet<'d> {
    pub disk: &'d dyn Disk,
    lock: RefCell<Option<Box<dyn Lock>>>,
    shape: Shape,
    /// What the folder itself says, whatever the settings are.
    stored: Option<Description>,
    /// What stands at each tray's place.
    pub trays: Vec<Option<TrayFile>>,
    /// The trays of cabinets that nothing here describes.
    strange: Vec<Tray>,
    /// How many threads compute at once.
    pub jobs: usize,
}

impl Deref for Cabinet<'_> {
    type Target = Shape;

    fn deref(&self) -> &Shape {
        &self.shape
    }
}

impl<'d> Cabinet<'d> {
    /// The cabinet of a folder, as its labels, its description or the settings say it is.
    pub fn find(
        disk: &'d dyn Disk,
        path: impl AsRef<Path>,
        arguments: &Arguments,
    ) -> Result<Cabinet<'d>, Failure> {
        let path = path.as_ref();
        let lock = locked(disk, path, Hold::Shared)?;
        let (census, stored) = stored(disk, path, arguments)?;
        let expected = match stored {
            Some(stored) => stored.with_settings(arguments)?,
            None => Description::of_settings(arguments)?.ok_or_else(|| unknown(path))?,
        };
        let mut cabinet = Cabinet::new(disk, path, expected)?;
        cabinet.stored = stored;
        cabinet.jobs = jobs::asked(arguments)?;
        cabinet.shape.seed = stored.unwrap_or(expected).seed();
        cabinet.lock = RefCell::new(Some(lock));
        cabinet.strange = census.of_unknown();
        let trays = cabinet.numbers.trays as u32;
        cabinet.trays = census.of(&stored.unwrap_or(expected), trays);
        Ok(cabinet)
    }

    /// A cabinet of this description, in a folder, with no tray yet.
    pub fn new(
        disk: &'d dyn Disk,
        path: &Path,
        description: Description,
    ) -> Result<Cabinet<'d>, Failure> {
        let shape = Shape::new(path, description)?;
        Ok(Cabinet {
            disk,
            lock: RefCell::new(None),
            stored: None,
            trays: (0..shape.numbers.trays).map(|_| None).collect(),
            strange: Vec::new(),
            jobs: 1,
            shape,
        })
    }

    /// Why a file is not used that is of another cabinet, in words; nothing for one of this.
    pub fn is_other(&self, file: &TrayFile) -> Option<String> {
        let stored = self.stored?;
        let what = match file.label {
            Some(_) => "its label is",
            None => "its segments are",
        };
        match file.cabinet() {
            Some(other) if other == stored => None,
            Some(other) if other.generation == stored.generation => {
                Some(format!("{what} of another cabinet"))
            }
            Some(other) => {
                let (found, expected) = (other.generation, stored.generation);
                Some(format!("{what} of generation {found}, not {expected}"))
            }
            None => self
                .strange
                .contains(&file.tray)
                .then(|| "its segments are of a cabinet that nothing here describes".to_string()),
        }
    }

    /// The files that may be of a newer cabinet than this one, and why they are not used.
    pub fn newer(&self) -> impl Iterator<Item = (&TrayFile, String)> {
        let generation = self.stored.map_or(0, |stored| stored.generation);
        let is_newer = move |file: &&TrayFile| match file.cabinet() {
            Some(other) => other.generation > generation,
            None => true,
        };
        let files = self.trays.iter().flatten().filter(is_newer);
        files.filter_map(|file| Some((file, self.is_other(file)?)))
    }

    /// Fails where a tray may be of a newer cabinet than this one: nothing is written over it unless
    /// a person names it.
    pub fn guard_newer(&self, named: &[Tray]) -> Result<(), Failure> {
        let mut newer = self.newer();
        match newer.find(|(file, _)| !named.contains(&file.tray)) {
            None => Ok(()),
            Some((file, words)) => Err(Failure::Contents(format!(
                "{}: {words}: it may be newer, and is not written over unless it is named (see \
                 --erase, or cabinet replace)",
                file.path.display()
            ))),
        }
    }

    /// The trays, of files that are used, of which this is so.
    fn trays_with(&self, is_so: impl Fn(&TrayFile) -> bool) -> Vec<Tray> {
        let files = self.trays.iter().flatten();
        let used = files.filter(|file| file.file.is_ok() && self.is_other(file).is_none());
        match self.description.format {
            Format::First => Vec::new(),
            Format::Second => used.filter(|file| is_so(file)).map(|of| of.tray).collect(),
        }
    }

    /// The trays whose own label cannot be read, where there should be one.
    pub fn unlabelled(&self) -> Vec<Tray> {
        self.trays_with(|file| file.label.is_none())
    }

    /// The trays whose files go on after their last segment.
    pub fn too_long(&self) -> Vec<Tray> {
        let end = self.geometry.end();
        self.trays_with(|file| file.entry.is_some_and(|entry| entry.length > end))
    }

    /// The mode that a new tray file has: that of one that is there.
    pub fn mode(&self) -> Option<u32> {
        let mut entries = self.trays.iter().flatten().filter_map(|file| file.entry);
        entries.next().map(|entry| entry.mode)
    }

    /// The segments from one on, each with every tray.
    pub fn segments<S: Symbol>(
        &self,
        first: u32,
    ) -> impl Iterator<Item = Result<Segment<'_, S>, Failure>> {
        let all = first..self.geometry.segments();
        all.map(|number| Segment::read(self, number, &|_| true))
    }

    /// Goes over segments: each is read in its order, worked on beside others, and what comes of it
    /// is taken in its order.
    pub fn over<'a, S: Symbol, R: Send>(
        &'a self,
        segments: Range<u32>,
        work: impl Fn(Segment<'a, S>) -> Result<R, Failure> + Sync,
        mut take: impl FnMut(R) -> Result<(), Failure>,
    ) -> Result<(), Failure> {
        let shape = &self.shape;
        let size = self.geometry.size(0) * self.numbers.trays;
        let at_once = jobs::at_once(self.jobs, size);
        for first in segments.clone().step_by(at_once) {
            let end = segments.end.min(first.saturating_add(at_once as u32));
            let read = |number| Raw::read(self, number, &|_| true);
            let raw: Vec<Raw> = (first..end).map(read).collect::<Result<_, Failure>>()?;
            let work = |raw| Segment::of(shape, raw).and_then(&work);
            for done in jobs::map(self.jobs, raw, work) {
                take(done?)?;
            }
        }
        Ok(())
    }

    /// All segments from one on.
    pub fn segments_from(&self, first: u32) -> Range<u32> {
        first..self.geometry.segments()
    }

    /// The segment of a stripe.
    pub fn segment_with<S: Symbol>(&self, stripe: u32) -> Result<Segment<'_, S>, Failure> {
        let count = self.description.stripes;
        match stripe < count {
            true => Segment::read(self, self.geometry.segment_of(stripe), &|_| true),
            false => Err(Failure::Usage(format!(
                "stripe {stripe}: there are only {count}"
            ))),
        }
    }

    /// What `cabinet.txt` should say and does not, in the second format, where it is a copy.
    pub fn other_text(&self) -> Option<Description> {
        let stored = self.stored.filter(|stored| stored.format == Format::Second);
        let text = Description::of(self.disk, self.folder()).unwrap_or_default();
        stored.filter(|_| text != stored)
    }

    /// Takes the lock alone, once all readers are done, and makes sure that the folder still holds
    /// the cabinet that was found in it.
    pub fn take_alone(&self) -> Result<(), Failure> {
        self.lock.take();
        let lock = self
            .disk
            .lock(self.folder(), Hold::Exclusive, true)
            .map_err(Failure::file(self.folder()))?;
        self.lock.replace(lock);
        let census = Census::take(self.disk, self.folder())?;
        match census.agreed()?.or(census.description()) == self.stored {
            true => match self.stored {
                Some(stored) => census.roll_forward(self.disk, self.folder(), &stored),
                None => Ok(()),
            },
            false => Err(Failure::Contents(format!(
                "{}: another cabinet has been stored here since; nothing is put in its place",
                self.folder().display()
            ))),
        }
    }
}

/// The lock of a folder, which must be there.
pub fn locked(disk: &dyn Disk, path: &Path, hold: Hold) -> Result<Box<dyn Lock>, Failure> {
    match disk.look(path).map_err(Failure::file(path))? {
        None => return Err(no_folder(path)),
        Some(entry) if entry.kind == Kind::File => return Err(no_folder(path)),
        Some(_) => {}
    }
    let lock = disk.lock(path, hold, false).map_err(Failure::file(path))?;
    lock.ok_or_else(|| {
        Failure::File(format!(
            "{}: another command is at work in this cabinet; try again when it is done",
            path.display()
        ))
    })
}

fn no_folder(path: &Path) -> Failure {
    Failure::File(format!("{}: no such folder", path.display()))
}

/// What a folder holds, by its labels, else by its description.
fn stored(
    disk: &dyn Disk,
    path: &Path,
    arguments: &Arguments,
) -> Result<(Census, Option<Description>), Failure> {
    let mut census = Census::take(disk, path)?;
    let agreed = census.agreed()?;
    let described = std::mem::replace(&mut census.described, Ok(None));
    let stored = match (agreed, described) {
        (Some(agreed), _) => Some(agreed),
        (None, Ok(described)) => described,
        // A description that cannot be read is not needed where the settings say it all.
        (None, Err(_)) if Description::of_settings(arguments)?.is_some() => None,
        (None, Err(failure)) => return Err(failure),
    };
    Ok((census, stored))
}

fn unknown(folder: &Path) -> Failure {
    Failure::Usage(format!(
        "{}: no such description and no labelled tray; say what is expected by --layout B,u,k,d \
         and --volume N",
        folder.join(NAME).display()
    ))
}
