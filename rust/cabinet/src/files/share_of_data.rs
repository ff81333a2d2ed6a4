//! Which share of the bytes on the trays are data, with labels, headers and checksums counted.

use super::geometry::{many, CHECKSUM, HEADER};
use super::label;
use crate::code::field::Field;
use gesarumbo::Numbers;
use std::cmp::Ordering;

/// Bytes of data in bytes of all tray files together.
#[derive(Clone, Copy, Debug)]
pub struct ShareOfData {
    data: u128,
    bytes: u128,
}

/// What data of one length take.
#[derive(Clone, Copy, Debug)]
pub struct Taken {
    pub stripes: u64,
    /// Bytes of a tray's file.
    pub tray: u64,
    /// Bytes that cross in the repair of one tray.
    pub crossing: u64,
    pub share: ShareOfData,
}

impl ShareOfData {
    /// What it comes to as files grow: whole segments, and no label.
    pub fn of_long_files(numbers: &Numbers, field: Field) -> ShareOfData {
        let many = many(numbers.layers, field.width()) as usize;
        let segment = HEADER + many * numbers.layers * field.width() + CHECKSUM;
        ShareOfData {
            data: (many * numbers.data()) as u128,
            bytes: (numbers.trays * segment) as u128,
        }
    }

    pub fn percent(self) -> f64 {
        100.0 * self.data as f64 / self.bytes as f64
    }

    /// Whether it is more than another.
    pub fn order(self, other: ShareOfData) -> Ordering {
        (self.data * other.bytes).cmp(&(other.data * self.bytes))
    }
}

impl Taken {
    /// What so many bytes of data take; nothing if there are more stripes than can be numbered.
    pub fn by(numbers: &Numbers, field: Field, length: u64) -> Option<Taken> {
        let stripes = length.div_ceil(numbers.data() as u64).max(1);
        if stripes > u32::MAX.into() {
            return None;
        }
        let symbols = |count: usize| stripes * (count * field.width()) as u64;
        let segments = stripes.div_ceil(many(numbers.layers, field.width()).into());
        let around = label::SIZE as u64 + segments * (HEADER + CHECKSUM) as u64;
        let tray = symbols(numbers.layers) + around;
        Some(Taken {
            stripes,
            tray,
            crossing: symbols(numbers.traffic),
            share: ShareOfData {
                data: length.into(),
                bytes: u128::from(tray) * numbers.trays as u128,
            },
        })
    }
}

#[cfg(test)]
mod tests {
    use super::{ShareOfData, Taken};
    use crate::code::field::Field;
    use gesarumbo::Layout;

    #[test]
    fn everything_on_the_trays_counts() {
        let numbers = Field::Of256.numbers(Layout::new(4, 3, 8, 3)).expect("one");
        let long = ShareOfData::of_long_files(&numbers, Field::Of256);
        assert_eq!((long.data, long.bytes), (32_768, 12 * 4_128));
        // 3,052 segments; docs/landings/COMMAND.md measures as much, with cabinet.txt and the folder.
        let taken = Taken::by(&numbers, Field::Of256, 100_000_000).expect("few stripes");
        assert_eq!(taken.stripes, 781_250);
        assert_eq!(taken.tray * 12, 151_178_112);
        assert!(taken.share.order(long).is_lt());
        assert!(long.percent() - taken.share.percent() < 0.01);
        assert!(Taken::by(&numbers, Field::Of256, u64::MAX).is_none());
    }
}
