//! Which cabinet a folder holds: what most of its trays agree on, by their labels, or by their
//! segments' checksums where a label cannot be read.
//!
//! A store writes all tray files of a new generation under work names before the first gets its own.
//! Where one has its own name, the new generation is whole, and the other files are found under
//! their work names: so the old generation or the new one is there, whenever the store was cut.

use super::description::{Description, Format, NAME};
use super::draft::{self, work_name};
use super::geometry::many;
use super::label::{Label, SIZE};
use super::trouble::Trouble;
use super::whose::{Start, Unlabelled, Whose};
use super::{output, remove};
use crate::disk::{read_part, Disk, Entry, Handle};
use crate::failure::Failure;
use crate::terminal::words::trays;
use gesarumbo::Tray;
use std::ffi::OsStr;
use std::io;
use std::path::{Path, PathBuf};

/// What a store's work is called in the names of work files.
pub const STORE: &str = "store";

/// A file of the folder that may be a tray's.
pub struct TrayFile {
    pub tray: Tray,
    pub path: PathBuf,
    /// Whether it has a tray's own name, and not a work name of a store.
    is_published: bool,
    pub file: Result<Box<dyn Handle>, (Trouble, String)>,
    /// What the system says of it, where it is open.
    pub entry: Option<Entry>,
    pub label: Option<Label>,
    /// Whose it is, where the label cannot be read.
    pub whose: Whose,
}

impl TrayFile {
    /// A file that stands alone, of this length.
    pub fn alone(tray: Tray, path: &Path, file: Box<dyn Handle>, entry: Entry) -> TrayFile {
        TrayFile {
            tray,
            path: path.to_path_buf(),
            is_published: true,
            file: Ok(file),
            entry: Some(entry),
            label: None,
            whose: Whose::NOBODY,
        }
    }

    /// Of which cabinet it is, by its label, or else by its segments.
    pub fn cabinet(&self) -> Option<Description> {
        match (&self.label, &self.whose) {
            (Some(label), _) => Some(label.cabinet),
            (None, Whose::Known(cabinet)) => Some(*cabinet),
            (None, Whose::Unknown(_)) => None,
        }
    }

    /// Which tray it is, by its label, or else by its name.
    fn counted(&self) -> Tray {
        self.label.map_or(self.tray, |label| label.tray)
    }

    /// The segments' starts, where no description of them is known.
    fn starts(&self) -> &[Start] {
        match &self.whose {
            Whose::Unknown(starts) => starts,
            Whose::Known(_) => &[],
        }
    }
}

/// All such files, and what `cabinet.txt` says.
pub struct Census {
    files: Vec<TrayFile>,
    pub described: Result<Option<Description>, Failure>,
    folder: PathBuf,
}

/// How much speaks for a cabinet: whether as many trays of it are there as give its data back, and
/// how many there are.
type Weight = (bool, usize);

impl Census {
    /// Opens all tray files of a folder and reads their labels; where one cannot be read, it looks
    /// whose segments follow.
    pub fn take(disk: &dyn Disk, folder: &Path) -> Result<Census, Failure> {
        let names = disk.list(folder).map_err(Failure::file(folder))?;
        let mut files = Vec::new();
        for name in names {
            if let Some((tray, is_published)) = tray_of(&name) {
                files.push(look(disk, folder.join(&name), tray, is_published)?);
            }
        }
        let mut census = Census {
            files,
            described: Description::of(disk, folder),
            folder: folder.to_path_buf(),
        };
        census.look_further()?;
        Ok(census)
    }

    /// What `cabinet.txt` says, if it can be read.
    pub fn description(&self) -> Option<Description> {
        self.described.as_ref().ok().copied().flatten()
    }

    /// Looks whose the files are that have no label. A folder of the first format has none at all.
    fn look_further(&mut self) -> Result<(), Failure> {
        let mut known: Vec<Description> = Vec::new();
        let labelled = self.files.iter().filter_map(|file| file.label);
        for cabinet in labelled
            .map(|label| label.cabinet)
            .chain(self.description())
        {
            if !known.contains(&cabinet) {
                known.push(cabinet);
            }
        }
        if known.iter().all(|cabinet| cabinet.format == Format::First) {
            return Ok(());
        }
        for of in self.files.iter_mut().filter(|file| file.label.is_none()) {
            let (Ok(file), Some(entry)) = (&of.file, of.entry) else {
                continue;
            };
            let unlabelled = Unlabelled {
                file: &**file,
                tray: of.tray,
                length: entry.length,
            };
            let whose = unlabelled.whose(&known);
            of.whose = whose.map_err(Failure::file(&of.path))?;
        }
        Ok(())
    }

    /// The cabinet that most trays agree on, with one file of it at least under its own name, and
    /// as many trays as give the data back, if there is such a one. Before all others of these goes
    /// the newest, if `cabinet.txt` describes it; where as many trays agree on two, the one that it
    /// describes, and else the newer. It cannot be told where as many are of a cabinet that nothing
    /// here describes, and `cabinet.txt` is silent, nor where a newer one may be meant.
    pub fn agreed(&self) -> Result<Option<Description>, Failure> {
        let published = self.files.iter().filter(|file| file.is_published);
        let all: Vec<Description> = published.filter_map(TrayFile::cabinet).collect();
        let described = self.description();
        let newest = all.iter().map(|one| one.generation).max();
        let best = all.iter().copied().max_by_key(|one| {
            let (is_enough, votes) = self.weight(one);
            let (is_described, generation) = (described == Some(*one), one.generation);
            let is_newest = is_described && Some(generation) == newest;
            (is_enough, is_newest, votes, is_described, generation)
        });
        let weight = best.map(|best| self.weight(&best)).unwrap_or_default();
        if let Some((other, found)) = self.unknown() {
            let is_described = best.is_some() && described == best;
            if other >= weight && !is_described && described.or(best).is_some() {
                return Err(self.undecided(&found, "no label of theirs can be read", best));
            }
        }
        let is_told = described.is_some_and(|described| all.contains(&described));
        let is_meant = |one: &&Description| match is_told {
            true => described == Some(**one),
            false => self.weight(one).0,
        };
        let is_newer =
            |one: &&Description| best.is_some_and(|best| one.generation > best.generation);
        match all.iter().filter(is_newer).find(is_meant) {
            Some(newer) => Err(self.undecided(&self.trays_of(newer), &newer_words(newer), best)),
            None => Ok(best),
        }
    }

    /// The trays of a cabinet, rising.
    fn trays_of(&self, cabinet: &Description) -> Vec<Tray> {
        let of_it = self.files.iter();
        let of_it = of_it.filter(|file| file.cabinet().as_ref() == Some(cabinet));
        let mut trays: Vec<Tray> = of_it.map(TrayFile::counted).collect();
        trays.sort();
        trays.dedup();
        trays
    }

    fn weight(&self, cabinet: &Description) -> Weight {
        let trays = self.trays_of(cabinet).len();
        (is_enough(cabinet, trays), trays)
    }

    /// The trays of a cabinet of which no description is known, those of the one with the most:
    /// two segments or more whose checksums start from one number.
    fn unknown(&self) -> Option<(Weight, Vec<Tray>)> {
        let published = || self.files.iter().filter(|file| file.is_published);
        let all: Vec<Start> = published().flat_map(TrayFile::starts).copied().collect();
        let weigh = |one: &Start| {
            if all.iter().filter(|other| *other == one).count() < 2 {
                return None;
            }
            let of_it = published().filter(|file| file.starts().contains(one));
            let trays: Vec<Tray> = of_it.map(|file| file.tray).collect();
            Some(((trays.len() >= one.needed, trays.len()), trays))
        };
        all.iter()
            .filter_map(weigh)
            .max_by_key(|(weight, _)| *weight)
    }

    /// The trays of cabinets of which no description is known.
    pub fn of_unknown(&self) -> Vec<Tray> {
        let published = || self.files.iter().filter(|file| file.is_published);
        let all: Vec<Start> = published().flat_map(TrayFile::starts).copied().collect();
        let is_one = |start: &Start| all.iter().filter(|other| *other == start).count() > 1;
        let of_one = published().filter(|file| file.starts().iter().any(is_one));
        of_one.map(|file| file.tray).collect()
    }

    fn undecided(&self, found: &[Tray], why: &str, best: Option<Description>) -> Failure {
        let (folder, found) = (self.folder.display(), trays(found));
        let other = match best {
            None => format!("{NAME} tells of another cabinet"),
            Some(best) => {
                let (of_it, generation) = (trays(&self.trays_of(&best)), best.generation);
                format!("there is generation {generation} too: {of_it}")
            }
        };
        Failure::Contents(format!(
            "{folder}: which cabinet this is cannot be told: {found} belong together ({why}), and \
             {other}; take those out that are not wanted"
        ))
    }

    /// The newest generation of any tray, and of the description.
    pub fn newest(&self) -> u64 {
        let cabinets = self.files.iter().filter_map(TrayFile::cabinet);
        let described = cabinets.chain(self.description());
        let generations = described.map(|cabinet| cabinet.generation);
        generations.max().unwrap_or(0)
    }

    /// Whether a file stands under a tray's own name.
    pub fn has_trays(&self) -> bool {
        self.files.iter().any(|file| file.is_published)
    }

    /// The published files of trays from this number on: those of a cabinet that is known, and the
    /// others.
    pub fn beyond(&self, trays: u32) -> (Vec<&Path>, Vec<&Path>) {
        let beyond = |file: &&TrayFile| file.is_published && file.tray.number() >= trays;
        let (own, others): (Vec<&TrayFile>, Vec<&TrayFile>) = self
            .files
            .iter()
            .filter(beyond)
            .partition(|file| file.cabinet().is_some());
        (
            own.into_iter().map(|file| &*file.path).collect(),
            others.into_iter().map(|file| &*file.path).collect(),
        )
    }

    /// Gives the remaining files of a store that was cut their own names.
    pub fn roll_forward(
        &self,
        disk: &dyn Disk,
        folder: &Path,
        cabinet: &Description,
    ) -> Result<(), Failure> {
        let mut moved = false;
        for file in &self.files {
            let label = Label {
                cabinet: *cabinet,
                tray: file.tray,
            };
            if !file.is_published && file.label == Some(label) {
                let own = folder.join(file_name(file.tray));
                disk.rename(&file.path, &own).map_err(Failure::file(&own))?;
                moved = true;
            }
        }
        if moved {
            draft::sync_folder(disk, folder)?;
            write_text(disk, folder, cabinet)?;
        }
        Ok(())
    }

    /// The file of each tray of a cabinet: the one under its own name, unless that is of another
    /// cabinet or missing and there is one under the work name.
    pub fn of(mut self, cabinet: &Description, trays: u32) -> Vec<Option<TrayFile>> {
        let is_of = |file: &TrayFile| file.cabinet().as_ref() == Some(cabinet);
        let mut chosen = Vec::new();
        for tray in (0..trays).map(Tray::new) {
            let mut of_tray = |wanted: &dyn Fn(&TrayFile) -> bool| {
                let at = self
                    .files
                    .iter()
                    .position(|file| file.tray == tray && wanted(file));
                at.map(|at| self.files.swap_remove(at))
            };
            let file = of_tray(&|file| file.is_published && is_of(file))
                .or_else(|| of_tray(&|file| !file.is_published && is_of(file)))
                .or_else(|| of_tray(&|file| file.is_published));
            chosen.push(file);
        }
        chosen
    }
}

fn newer_words(newer: &Description) -> String {
    format!("generation {}, which is newer", newer.generation)
}

/// Writes `cabinet.txt` as the labels say it, whichever store left it so.
pub fn write_text(disk: &dyn Disk, folder: &Path, cabinet: &Description) -> Result<(), Failure> {
    let description = folder.join(NAME);
    output::write_own(disk, &description, &cabinet.bytes())?;
    remove(disk, &work_name(&description, STORE)?)
}

/// A tray's file name.
pub fn file_name(tray: Tray) -> String {
    format!("tray-{tray:02}.img")
}

/// The tray whose file or work file of a store has this name.
fn tray_of(name: &OsStr) -> Option<(Tray, bool)> {
    let name = name.to_str()?;
    let (own, is_published) = match name.strip_prefix('.') {
        Some(work) => (work.strip_suffix(STORE)?.strip_suffix('.')?, false),
        None => (name, true),
    };
    let number = own.strip_prefix("tray-")?.strip_suffix(".img")?;
    let tray = Tray::new(number.parse().ok()?);
    (file_name(tray) == own).then_some((tray, is_published))
}

/// Opens a file and reads its label. Trouble of the system itself ends the command.
fn look(
    disk: &dyn Disk,
    path: PathBuf,
    tray: Tray,
    is_published: bool,
) -> Result<TrayFile, Failure> {
    let opened = disk.open(&path).and_then(|file| {
        let entry = file.entry()?;
        Ok((file, entry))
    });
    let (file, entry) = match opened {
        Ok((file, entry)) => (Ok(file), Some(entry)),
        Err(error) => (Err(judged(&path, error)?), None),
    };
    let mut label = None;
    if let Ok(file) = &file {
        match read_part(&**file, 0, SIZE) {
            Ok(block) => label = Label::parse(&block).filter(|label| is_second(&label.cabinet)),
            // A medium that cannot be read here may be read elsewhere in the file.
            Err(error) => drop(judged(&path, error)?),
        }
    }
    Ok(TrayFile {
        tray,
        path,
        is_published,
        file,
        entry,
        label,
        whose: Whose::NOBODY,
    })
}

/// What an error says of a tray; a local one is the command's failure.
fn judged(path: &Path, error: io::Error) -> Result<(Trouble, String), Failure> {
    match Trouble::of(&error) {
        Trouble::Local if error.kind() != io::ErrorKind::NotFound => {
            Err(Failure::file(path)(error))
        }
        trouble => Ok((trouble, error.to_string())),
    }
}

/// Whether as many trays of a cabinet give its data back. A store of fewer trays that was cut leaves
/// more of the old ones than of its own, though perhaps not as many as these need.
fn is_enough(cabinet: &Description, trays: usize) -> bool {
    let numbers = cabinet.field.numbers(cabinet.layout);
    numbers.is_ok_and(|numbers| trays >= numbers.dimension)
}

/// Whether a label's cabinet is one that a store writes.
fn is_second(cabinet: &Description) -> bool {
    let numbers = cabinet.field.numbers(cabinet.layout);
    numbers.is_ok_and(|numbers| cabinet.many == many(numbers.layers, cabinet.field.width()))
}
