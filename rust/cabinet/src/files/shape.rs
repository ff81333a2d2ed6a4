//! What a cabinet's files are like: all that is worked out from a description, and no file.

use super::census::file_name;
use super::description::Description;
use super::geometry::Geometry;
use crate::code::numbers::Numbers;
use crate::code::symbol::Symbol;
use crate::failure::Failure;
use gesarumbo::{checksum, Tray, LIVE};
use std::path::{Path, PathBuf};

/// Where a cabinet is, and what its files must be like.
#[derive(Clone, Debug)]
pub struct Shape {
    path: PathBuf,
    pub description: Description,
    /// Where the checksums of its segments start.
    pub seed: u64,
    pub numbers: Numbers,
    pub geometry: Geometry,
}

impl Shape {
    pub fn new(path: &Path, description: Description) -> Result<Shape, Failure> {
        let numbers = Numbers::of(description.layout, description.field)?;
        Ok(Shape {
            path: path.to_path_buf(),
            description,
            seed: description.seed(),
            numbers,
            geometry: Geometry::of(&description, &numbers),
        })
    }

    /// A file of the folder.
    pub fn file(&self, name: &str) -> PathBuf {
        self.path.join(name)
    }

    pub fn folder(&self) -> &Path {
        &self.path
    }

    /// A tray's file.
    pub fn image_path(&self, tray: Tray) -> PathBuf {
        self.path.join(file_name(tray))
    }

    /// The volume of a segment.
    pub fn volume(&self, segment: u32) -> u32 {
        self.description.volume + segment
    }

    /// Where something is, for messages: nothing where there is only one stripe.
    pub fn place(&self, stripe: u32) -> String {
        match self.description.stripes {
            1 => String::new(),
            _ => format!("stripe {stripe}: "),
        }
    }

    /// A tray's segment as its file has it, of symbols interleaved.
    pub fn segment_bytes<S: Symbol>(
        &self,
        segment: u32,
        tray: Tray,
        part: &[S],
    ) -> Result<Vec<u8>, Failure> {
        self.segment_bytes_as(LIVE, segment, tray, part)
    }

    /// A tray's segment, in any state.
    pub fn segment_bytes_as<S: Symbol>(
        &self,
        state: u8,
        segment: u32,
        tray: Tray,
        part: &[S],
    ) -> Result<Vec<u8>, Failure> {
        let mut bytes = vec![0; self.geometry.image()];
        let (layout, volume) = (self.description.layout, self.volume(segment));
        let (first, rest) = part.split_at(self.numbers.layers);
        (S::CALLS.write_image)(layout, tray, state.into(), volume, first, &mut bytes)
            .map_err(Failure::refused(format!("image of tray {tray}")))?;
        bytes.extend(S::to_bytes(rest));
        if self.geometry.has_checksums() {
            let check = checksum(self.seed, &bytes);
            bytes.extend(check.to_le_bytes());
        }
        Ok(bytes)
    }
}
