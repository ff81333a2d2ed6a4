//! A tray's label: one block of text at the beginning of its file that says of which cabinet it is,
//! with a checksum of its own. Any one tray tells what the cabinet is.

use super::description::{parse_second, Description};
use gesarumbo::{checksum, Tray};

/// Bytes of a label.
pub const SIZE: usize = 512;

/// The line before the checksum's digits, and how many these are.
const CHECK: &str = "\ncheck ";
const DIGITS: usize = 16;

/// What a label says.
#[derive(Clone, Copy, PartialEq, Eq, Debug)]
pub struct Label {
    pub cabinet: Description,
    pub tray: Tray,
}

impl Label {
    /// The label's block.
    pub fn bytes(&self) -> Vec<u8> {
        let text = format!("{}tray {}\n", self.cabinet.lines(), self.tray);
        let wide = SIZE - CHECK.len() - DIGITS - 1;
        with_check(&format!("{text:<wide$}"))
    }

    /// The label of a block, if it is just as one is written.
    pub fn parse(block: &[u8]) -> Option<Label> {
        let text = str::from_utf8(block).ok()?;
        let (cabinet, mut rest) = parse_second(text)?;
        let tray = rest.next()?.strip_prefix("tray ")?.parse().ok()?;
        let label = Label {
            cabinet,
            tray: Tray::new(tray),
        };
        (label.bytes() == block).then_some(label)
    }
}

/// A text with a line for its checksum, which is that of all before its digits.
pub fn with_check(text: &str) -> Vec<u8> {
    let mut bytes = format!("{text}{CHECK}").into_bytes();
    let check = checksum(0, &bytes);
    bytes.extend(format!("{check:016x}\n").into_bytes());
    bytes
}

#[cfg(test)]
mod tests {
    use super::{Label, SIZE};
    use crate::code::field::Field;
    use crate::files::description::{Description, Format};
    use gesarumbo::{Layout, Tray};

    fn label() -> Label {
        Label {
            cabinet: Description {
                format: Format::Second,
                layout: Layout::with_errors(6, 3, 5, 4, 1),
                field: Field::Of256,
                volume: 7,
                generation: 3,
                stripes: 100,
                many: 64,
                length: Some(31_999),
                checksum: Some(0xFEED),
            },
            tray: Tray::new(17),
        }
    }

    #[test]
    fn a_label_is_read_as_it_is_written() {
        let block = label().bytes();
        assert_eq!(block.len(), SIZE);
        assert_eq!(Label::parse(&block), Some(label()));
    }

    #[test]
    fn every_bit_of_it_counts() {
        let block = label().bytes();
        for at in 0..SIZE {
            for bit in 0..8 {
                let mut other = block.clone();
                other[at] ^= 1 << bit;
                assert_eq!(Label::parse(&other), None, "byte {at}, bit {bit}");
            }
            assert_eq!(Label::parse(&block[..at]), None, "cut at {at}");
        }
    }
}
