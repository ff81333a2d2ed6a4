//! A repair card as a text file: a line for each sum of the host rack, digit 0 first, with a
//! multiplier for each helper.

use crate::code::symbol::Symbol;
use crate::disk::Disk;
use crate::failure::Failure;
use crate::files;
use gesarumbo::Refusal;
use std::path::Path;

/// The lines of a card for so many helpers.
pub fn lines<S: Symbol>(card: &[S], helpers: usize) -> Vec<String> {
    let number = |multiplier: &S| {
        let number: u16 = (*multiplier).into();
        number.to_string()
    };
    let line = |row: &[S]| row.iter().map(number).collect::<Vec<String>>().join(" ");
    card.chunks(helpers).map(line).collect()
}

/// The multipliers in a file. How many there must be only the library says.
pub fn read<S: Symbol>(disk: &dyn Disk, path: &Path) -> Result<Vec<S>, Failure> {
    let bytes = files::read_existing(disk, path)?;
    let text = String::from_utf8_lossy(&bytes);
    let multiplier = |word: &str| {
        let place = path.display();
        let no_number = || Failure::Contents(format!("{place}: no card: '{word}' is no number"));
        let number: u64 = word.parse().map_err(|_| no_number())?;
        let about = format!("{place}: multiplier {number}");
        lendable(number).ok_or_else(|| Failure::refused(about)(Refusal::Number))
    };
    text.split_whitespace().map(multiplier).collect()
}

/// A number as a symbol is lent, if it has room there.
fn lendable<S: Symbol>(number: u64) -> Option<S> {
    let bytes = number.to_le_bytes();
    let (low, high) = bytes.split_at(S::WIDTH);
    high.iter()
        .all(|byte| *byte == 0)
        .then(|| S::of_bytes(low))?
}

#[cfg(test)]
mod tests {
    use super::{lendable, lines};

    #[test]
    fn a_line_for_each_sum() {
        assert_eq!(
            lines::<u8>(&[172, 72, 114, 173, 73, 115], 3),
            ["172 72 114", "173 73 115"]
        );
        assert_eq!(lines::<u16>(&[256], 1), ["256"]);
    }

    #[test]
    fn numbers_that_can_be_lent() {
        assert_eq!(lendable::<u8>(255), Some(255));
        assert_eq!(lendable::<u8>(256), None);
        assert_eq!(lendable::<u16>(65_535), Some(65_535));
        assert_eq!(lendable::<u16>(65_536), None);
        assert_eq!(lendable::<u16>(u64::MAX), None);
    }
}
