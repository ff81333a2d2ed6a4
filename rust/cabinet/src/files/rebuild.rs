//! Some trays' files written anew, stripe after stripe, beside the old ones, with a checkpoint from
//! which a cut command goes on.
//!
//! A segment is written when all its stripes are there; those of the segment under work are kept in
//! the checkpoint. A command that goes on looks at all that it has written before.

use super::cabinet::Cabinet;
use super::checkpoint::{self, Checkpoint, MOST_UNSAVED};
use super::description::Format;
use super::draft::{self, Draft};
use super::geometry::HEADER;
use super::interleave::{apart, together};
use super::label::{Label, SIZE};
use super::shape::Shape;
use crate::code::symbol::Symbol;
use crate::failure::Failure;
use crate::files;
use gesarumbo::{Kept, Tray};
use std::path::{Path, PathBuf};

/// What is rebuilt, and by which task.
pub struct Rebuilding {
    pub trays: Vec<Tray>,
    /// What the work is called in the work files' names.
    pub work: &'static str,
    /// The checkpoint's first line.
    pub task: String,
    /// The checkpoint's file.
    pub path: PathBuf,
}

/// New tray files as far as they are written.
pub struct Rebuild<'a, S> {
    cabinet: &'a Cabinet<'a>,
    what: Rebuilding,
    drafts: Vec<Draft<'a>>,
    /// The stripes of the segment under work, interleaved, tray after tray.
    parts: Vec<Vec<S>>,
    /// The next stripe to be written.
    pub next: u32,
    /// Bytes of codewords since the last checkpoint.
    unsaved: u64,
}

impl<'a, S: Symbol> Rebuild<'a, S> {
    /// A rebuild from the first stripe on.
    pub fn begin(cabinet: &'a Cabinet<'a>, what: Rebuilding) -> Result<Rebuild<'a, S>, Failure> {
        let mode = cabinet.mode();
        let begin = |tray: &Tray| {
            let path = cabinet.image_path(*tray);
            let mut draft = Draft::begin(cabinet.disk, &path, what.work, mode)?;
            if cabinet.description.format == Format::Second {
                // The label comes last.
                draft.write(&[0; SIZE])?;
            }
            Ok(draft)
        };
        let drafts: Result<Vec<Draft>, Failure> = what.trays.iter().map(begin).collect();
        let mut rebuild = Rebuild {
            cabinet,
            drafts: drafts?,
            parts: vec![Vec::new(); what.trays.len()],
            what,
            next: 0,
            unsaved: 0,
        };
        rebuild.clear_parts();
        Ok(rebuild)
    }

    /// A rebuild that goes on where a checkpoint ends, and what the checkpoint has besides; nothing
    /// if there is no such stripe, or the work files have not all before it, just as it was written.
    pub fn go_on(
        cabinet: &'a Cabinet<'a>,
        what: Rebuilding,
        checkpoint: &Checkpoint,
    ) -> Result<Option<(Rebuild<'a, S>, Vec<u8>)>, Failure> {
        let next = checkpoint.stripe;
        let Some((parts, rest)) = held(cabinet, what.trays.len(), checkpoint) else {
            return Ok(None);
        };
        let segment = cabinet.geometry.segment_of(next);
        let written = cabinet.geometry.offset(segment);
        let go_on = |tray: &Tray| {
            let path = cabinet.image_path(*tray);
            Draft::go_on(cabinet.disk, &path, what.work, written)
        };
        let drafts: Result<Option<Vec<Draft>>, Failure> = what.trays.iter().map(go_on).collect();
        let Some(drafts) = drafts? else {
            return Ok(None);
        };
        let rebuild = Rebuild {
            cabinet,
            what,
            drafts,
            parts,
            next,
            unsaved: 0,
        };
        Ok(rebuild.is_as_written(segment)?.then_some((rebuild, rest)))
    }

    /// Reads all segments before one again. Each must be one that a rebuild writes; in the first
    /// format, which has no checksums, its stripes must fit to the other trays.
    fn is_as_written(&self, end: u32) -> Result<bool, Failure> {
        for segment in 0..end {
            let parts = self.written(segment)?;
            let Some(parts) = parts else {
                return Ok(false);
            };
            if !self.cabinet.geometry.has_checksums() && !self.fits(segment, &parts)? {
                return Ok(false);
            }
        }
        Ok(true)
    }

    /// The trays' parts of a segment as the work files have them, if each is just as it is written.
    fn written(&self, segment: u32) -> Result<Option<Vec<Vec<S>>>, Failure> {
        let trays = self.what.trays.iter().zip(&self.drafts);
        let part = |(tray, draft): (&Tray, &Draft)| {
            let read = |at, out: &mut [u8]| draft.read_at(at, out);
            written_part(self.cabinet, segment, *tray, read)
        };
        trays.map(part).collect()
    }

    fn fits(&self, segment: u32, parts: &[Vec<S>]) -> Result<bool, Failure> {
        let stripes = self.cabinet.geometry.stripes_of(segment);
        let read = self.cabinet.segment_with::<S>(stripes.start)?;
        for stripe in stripes.clone() {
            let place = (stripe - stripes.start) as usize;
            let symbols = stripe_of(self.cabinet, parts, stripes.len(), place);
            let kept = read.stripe(stripe).test_with(&self.what.trays, &symbols)?;
            if let Kept::Bad { .. } = kept {
                return Ok(false);
            }
        }
        Ok(true)
    }

    fn clear_parts(&mut self) {
        let segment = self.cabinet.geometry.segment_of(self.next);
        let many = self.cabinet.geometry.stripes_of(segment).len();
        let size = self.cabinet.numbers.layers * many;
        self.parts.iter_mut().for_each(|part| {
            part.clear();
            part.resize(size, S::default());
        });
    }

    /// Writes the trays' symbols of the next stripe; they are tray after tray.
    pub fn write<'s>(&mut self, symbols: impl Iterator<Item = &'s [S]>) -> Result<(), Failure> {
        let segment = self.cabinet.geometry.segment_of(self.next);
        let stripes = self.cabinet.geometry.stripes_of(segment);
        let (many, place) = (stripes.len(), (self.next - stripes.start) as usize);
        for (part, symbols) in self.parts.iter_mut().zip(symbols) {
            together(symbols, many, place, part);
        }
        self.next += 1;
        self.unsaved += (S::WIDTH * self.cabinet.numbers.codeword()) as u64;
        if self.next < stripes.end {
            return Ok(());
        }
        let trays = self.what.trays.iter().zip(&mut self.drafts);
        for ((tray, draft), part) in trays.zip(&self.parts) {
            draft.write(&self.cabinet.segment_bytes(segment, *tray, part)?)?;
        }
        self.clear_parts();
        Ok(())
    }

    /// Whether so much has been done that a checkpoint is due.
    pub fn is_due(&self) -> bool {
        self.unsaved >= MOST_UNSAVED && self.next < self.cabinet.description.stripes
    }

    /// Brings what is written onto the disk, and writes a checkpoint that says so.
    pub fn save(&mut self, step: u64, over: u64, rest: &[u8]) -> Result<(), Failure> {
        self.drafts.iter_mut().try_for_each(Draft::sync)?;
        let parts = S::to_bytes(&self.parts.concat());
        let checkpoint = Checkpoint {
            task: self.what.task.clone(),
            stripe: self.next,
            step,
            over,
            rest: [&parts, rest].concat(),
        };
        checkpoint.write(self.cabinet.disk, &self.what.path)?;
        self.drafts.iter_mut().for_each(|draft| draft.stays = true);
        self.unsaved = 0;
        Ok(())
    }

    /// Writes the labels, puts the new files in the old ones' places, if the folder still holds the
    /// same cabinet, and removes the checkpoint, which comes first: cut in between, the task begins
    /// anew.
    pub fn publish(mut self) -> Result<(), Failure> {
        if self.cabinet.description.format == Format::Second {
            for (tray, draft) in self.what.trays.iter().zip(&mut self.drafts) {
                let label = Label {
                    cabinet: self.cabinet.description,
                    tray: *tray,
                };
                draft.write_start(&label.bytes())?;
            }
        }
        self.drafts.iter_mut().try_for_each(Draft::sync)?;
        if !self.drafts.is_empty() {
            self.cabinet.take_alone()?;
        }
        checkpoint::remove(self.cabinet.disk, &self.what.path)?;
        draft::rename(std::mem::take(&mut self.drafts))
    }

    pub fn path(&self) -> &Path {
        &self.what.path
    }
}

/// A tray's part of a segment as its work file has it, if it is just as it is written.
fn written_part<S: Symbol>(
    cabinet: &Shape,
    segment: u32,
    tray: Tray,
    read: impl Fn(u64, &mut [u8]) -> Result<usize, Failure>,
) -> Result<Option<Vec<S>>, Failure> {
    let geometry = &cabinet.geometry;
    let symbols = cabinet.numbers.layers * geometry.stripes_of(segment).len() * S::WIDTH;
    let mut bytes = vec![0; geometry.size(segment)];
    read(geometry.offset(segment), &mut bytes)?;
    let part = S::from_bytes(&bytes[HEADER..HEADER + symbols]);
    let part = part.filter(|part| part.iter().all(|symbol| symbol.is_symbol()));
    match part {
        Some(part) if cabinet.segment_bytes(segment, tray, &part)? == bytes => Ok(Some(part)),
        _ => Ok(None),
    }
}

/// The symbols of a stripe of one tray that a rebuild of it has done, as its checkpoint and its work
/// file have them, and what else the checkpoint has; nothing is changed.
pub fn done_before<S: Symbol>(
    cabinet: &Cabinet,
    what: &Rebuilding,
    checkpoint: &Checkpoint,
    stripe: u32,
) -> Result<Option<Vec<S>>, Failure> {
    let (geometry, tray) = (&cabinet.geometry, what.trays[0]);
    let segment = geometry.segment_of(stripe);
    let stripes = geometry.stripes_of(segment);
    let part = match segment == geometry.segment_of(checkpoint.stripe) {
        true => held(cabinet, 1, checkpoint).map(|(parts, _)| parts),
        false => {
            let path = draft::work_name(&cabinet.image_path(tray), what.work)?;
            let (file, _) = files::open_existing(cabinet.disk, &path)?;
            let read = |at, out: &mut [u8]| file.read_at(at, out).map_err(Failure::file(&path));
            written_part(cabinet, segment, tray, read)?.map(|part| vec![part])
        }
    };
    let place = (stripe - stripes.start) as usize;
    Ok(part.map(|part| stripe_of(cabinet, &part, stripes.len(), place)))
}

/// The parts of a segment under work that a checkpoint begins with, and what follows.
pub fn held<S: Symbol>(
    cabinet: &Shape,
    trays: usize,
    checkpoint: &Checkpoint,
) -> Option<(Vec<Vec<S>>, Vec<u8>)> {
    let (next, rest) = (checkpoint.stripe, &checkpoint.rest);
    if next >= cabinet.description.stripes {
        return None;
    }
    let segment = cabinet.geometry.segment_of(next);
    let part = cabinet.numbers.layers * cabinet.geometry.stripes_of(segment).len();
    let size = trays * part * S::WIDTH;
    let parts: Vec<S> = S::from_bytes(rest.get(..size)?)?;
    let parts = parts.chunks(part).map(<[S]>::to_vec).collect();
    Some((parts, rest[size..].to_vec()))
}

/// The symbols of one stripe of the trays' parts, tray after tray.
fn stripe_of<S: Symbol>(cabinet: &Shape, parts: &[Vec<S>], many: usize, place: usize) -> Vec<S> {
    let layers = cabinet.numbers.layers;
    let mut symbols = vec![S::default(); parts.len() * layers];
    for (part, out) in parts.iter().zip(symbols.chunks_mut(layers)) {
        apart(part, many, place, out);
    }
    symbols
}
