//! Whose segments a tray file has whose label cannot be read: a segment's checksum starts from its
//! cabinet's description, so it is right for one cabinet alone.

use super::description::{Description, Format};
use super::geometry::{many, Geometry, CHECKSUM, HEADER};
use super::header::Header;
use super::label;
use super::trouble::Trouble;
use crate::code::field::in_field;
use crate::code::numbers::Numbers;
use crate::code::symbol::Symbol;
use crate::disk::{read_part, Handle};
use gesarumbo::{checksum, Tray};
use std::io;

/// The cabinet of a file without a label.
#[derive(Clone, PartialEq, Eq, Debug)]
pub enum Whose {
    /// Its segments have the checksums of this cabinet.
    Known(Description),
    /// No description is known that they start from.
    Unknown(Vec<Start>),
}

impl Whose {
    /// Nothing is known.
    pub const NOBODY: Whose = Whose::Unknown(Vec::new());
}

/// Where the checksum of a segment starts, if the segment is as it was written, and how many trays
/// its cabinet needs.
#[derive(Clone, Copy, PartialEq, Eq, Debug)]
pub struct Start {
    pub start: u64,
    pub needed: usize,
}

/// No more segments of a file are looked at for each cabinet.
const MOST_SEGMENTS: u32 = 256;

/// No more segments of a file are taken back to where their checksums start.
const MOST_STARTS: u64 = 8;

/// A file that may be a tray's.
pub struct Unlabelled<'f> {
    pub file: &'f dyn Handle,
    pub tray: Tray,
    pub length: u64,
}

impl Unlabelled<'_> {
    /// Of which of these cabinets it is, if of any.
    pub fn whose(&self, known: &[Description]) -> io::Result<Whose> {
        for cabinet in known {
            let fits = match cabinet.format {
                Format::First => in_field!(cabinet.field, is_image(self, cabinet)),
                Format::Second => self.fits(cabinet),
            };
            if fits? {
                return Ok(Whose::Known(*cabinet));
            }
        }
        self.starts().map(Whose::Unknown)
    }

    /// Whether a segment has the checksum of this cabinet.
    fn fits(&self, cabinet: &Description) -> io::Result<bool> {
        let Ok(numbers) = Numbers::of(cabinet.layout, cabinet.field) else {
            return Ok(false);
        };
        let (geometry, seed) = (Geometry::of(cabinet, &numbers), cabinet.seed());
        let segments = geometry.segments();
        let step = segments.div_ceil(MOST_SEGMENTS) as usize;
        for number in (0..segments).step_by(step) {
            let read = self.segment(geometry.offset(number), geometry.size(number))?;
            if read.is_some_and(|(summed, check)| checksum(seed, &summed) == check) {
                return Ok(true);
            }
        }
        Ok(false)
    }

    /// A segment and its checksum, if it can be read.
    fn segment(&self, at: u64, size: usize) -> io::Result<Option<(Vec<u8>, u64)>> {
        let mut bytes = self.bytes(at, size)?;
        if bytes.len() < size || size < CHECKSUM {
            return Ok(None);
        }
        let check = bytes.split_off(size - CHECKSUM);
        let check = check.try_into().map(u64::from_le_bytes);
        Ok(check.ok().map(|check| (bytes, check)))
    }

    /// The bytes of a place; none where the medium cannot be read.
    fn bytes(&self, at: u64, size: usize) -> io::Result<Vec<u8>> {
        match read_part(self.file, at, size) {
            Err(error) if Trouble::of(&error) != Trouble::Local => Ok(Vec::new()),
            read => read,
        }
    }

    /// Where the checksums of some segments start, by the layout that the first header claims.
    fn starts(&self) -> io::Result<Vec<Start>> {
        let label = label::SIZE as u64;
        let header = Header::of(&self.bytes(label, HEADER)?);
        let claimed = header
            .filter(|header| header.is_live() && header.tray() == self.tray)
            .map(|header| header.claimed());
        let Some(numbers) = claimed.and_then(|of| Numbers::of(of.layout, of.field).ok()) else {
            return Ok(Vec::new());
        };
        let width = numbers.field.width();
        let stripe = numbers.layers * width;
        let whole = HEADER + many(numbers.layers, width) as usize * stripe + CHECKSUM;
        let room = self.length.saturating_sub(label);
        let (count, rest) = (room / whole as u64, (room % whole as u64) as usize);
        let mut sizes = vec![whole; count.min(MOST_STARTS) as usize];
        if count < MOST_STARTS && rest >= HEADER + stripe + CHECKSUM {
            sizes.push(rest);
        }
        let mut starts = Vec::new();
        for (number, size) in (0..).zip(sizes) {
            if let Some((summed, check)) = self.segment(label + number * whole as u64, size)? {
                starts.push(Start {
                    start: start_of(&summed, check),
                    needed: numbers.dimension,
                });
            }
        }
        Ok(starts)
    }
}

/// Whether a file begins with an image of its tray, of a cabinet of the first format.
fn is_image<S: Symbol>(file: &Unlabelled, cabinet: &Description) -> io::Result<bool> {
    let Ok(numbers) = Numbers::of(cabinet.layout, cabinet.field) else {
        return Ok(false);
    };
    let size = Geometry::of(cabinet, &numbers).image();
    let image = file.bytes(0, size)?;
    let read = S::read_image(cabinet.layout, cabinet.volume, &image);
    Ok(read.is_ok_and(|(tray, _)| tray == file.tray))
}

/// The start from which bytes have this checksum: there is just one.
fn start_of(bytes: &[u8], check: u64) -> u64 {
    /// The checksum's polynomial, low powers first.
    const POLYNOMIAL: u64 = 0xC96C_5795_D787_0F42;
    let back = |sum: u64| match sum >> 63 {
        0 => sum << 1,
        _ => ((sum ^ POLYNOMIAL) << 1) | 1,
    };
    let before = |sum, byte: &u8| (0..8).fold(sum, |sum, _| back(sum)) ^ u64::from(*byte);
    !bytes.iter().rev().fold(!check, before)
}

#[cfg(test)]
mod tests {
    use super::start_of;
    use gesarumbo::checksum;

    #[test]
    fn a_checksum_is_taken_back_to_its_start() {
        for start in [0, 1, 0xFEED, u64::MAX] {
            for bytes in [&b""[..], b"1", b"123456789", &[0; 100]] {
                assert_eq!(start_of(bytes, checksum(start, bytes)), start);
            }
        }
    }
}
