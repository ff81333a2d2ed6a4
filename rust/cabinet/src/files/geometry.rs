//! Where a tray's file has what: a label, then segments of some stripes each. In the first format
//! there is no label, a segment is one stripe, and it has no checksum.

use super::description::{Description, Format};
use super::label;
use crate::code::numbers::Numbers;
use std::ops::Range;

/// Bytes of an image before its symbols.
pub const HEADER: usize = 24;

/// Bytes of a segment's checksum.
pub const CHECKSUM: usize = 8;

/// A segment has at least so many bytes of symbols, but for the last of a tray.
const LEAST: usize = 4096;

/// The places in a tray's file.
#[derive(Clone, Copy, PartialEq, Eq, Debug)]
pub struct Geometry {
    label: u64,
    many: u32,
    /// Bytes of one stripe's symbols.
    stripe: usize,
    checksum: usize,
    stripes: u32,
}

/// The stripes of a segment: the least power of two for which the symbols are 4 KiB or more.
pub fn many(layers: usize, width: usize) -> u32 {
    let mut many = 1;
    while layers * width * (many as usize) < LEAST {
        many *= 2;
    }
    many
}

impl Geometry {
    pub fn of(description: &Description, numbers: &Numbers) -> Geometry {
        let stripe = numbers.layers * description.field.width();
        let (label, checksum) = match description.format {
            Format::First => (0, 0),
            Format::Second => (label::SIZE as u64, CHECKSUM),
        };
        Geometry {
            label,
            many: description.many,
            stripe,
            checksum,
            stripes: description.stripes,
        }
    }

    /// How many segments there are.
    pub fn segments(&self) -> u32 {
        self.stripes.div_ceil(self.many)
    }

    /// The segment of a stripe.
    pub fn segment_of(&self, stripe: u32) -> u32 {
        stripe / self.many
    }

    /// The stripes of a segment; the last one has those that are left.
    pub fn stripes_of(&self, segment: u32) -> Range<u32> {
        let first = segment * self.many;
        first..self.stripes.min(first.saturating_add(self.many))
    }

    /// Where a segment begins.
    pub fn offset(&self, segment: u32) -> u64 {
        let whole = HEADER + self.many as usize * self.stripe + self.checksum;
        self.label + u64::from(segment) * whole as u64
    }

    /// Where the last segment ends.
    pub fn end(&self) -> u64 {
        let last = self.segments() - 1;
        self.offset(last) + self.size(last) as u64
    }

    /// Bytes of a segment.
    pub fn size(&self, segment: u32) -> usize {
        HEADER + self.stripes_of(segment).len() * self.stripe + self.checksum
    }

    /// Bytes of a segment before its checksum.
    pub fn summed(&self, segment: u32) -> usize {
        self.size(segment) - self.checksum
    }

    /// Bytes of a segment's header and its first L symbols: what the library judges.
    pub fn image(&self) -> usize {
        HEADER + self.stripe
    }

    /// Whether segments have a checksum.
    pub fn has_checksums(&self) -> bool {
        self.checksum > 0
    }
}

#[cfg(test)]
mod tests {
    use super::many;

    #[test]
    fn segments_are_four_kibibytes_or_more() {
        assert_eq!(many(16, 1), 256);
        assert_eq!(many(32, 2), 64);
        assert_eq!(many(1024, 1), 4);
        assert_eq!(many(4096, 1), 1);
        assert_eq!(many(4096, 2), 1);
        assert_eq!(many(729, 1), 8);
        assert_eq!(many(1, 1), 4096);
    }
}
