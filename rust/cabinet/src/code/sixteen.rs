//! The sixteen-tray box as people write it: a hexadecimal digit for each symbol, a dot for a tray
//! that is lost.

use crate::failure::Failure;
use gesarumbo::Tray;
use std::ffi::OsString;

/// The trays of a rack.
pub const SIZE: usize = 4;

/// What was written, tray after tray.
pub struct Written {
    /// The symbols; a lost tray's is never looked at.
    pub symbols: Vec<u8>,
    /// The trays with a dot, rising.
    pub lost: Vec<Tray>,
}

/// What stands for a lost tray's symbol.
const ANY: u8 = 0;

/// Reads the words, which may be cut anywhere.
pub fn read(words: &[OsString]) -> Result<Written, Failure> {
    let mut written = Written {
        symbols: Vec::new(),
        lost: Vec::new(),
    };
    let text: Vec<_> = words.iter().map(|word| word.to_string_lossy()).collect();
    for (tray, mark) in (0..).zip(text.concat().chars()) {
        match mark.to_digit(16) {
            Some(digit) => written.symbols.push(digit as u8),
            None if mark == '.' => {
                written.symbols.push(ANY);
                written.lost.push(Tray::new(tray));
            }
            None => return Err(Failure::Usage(format!("'{mark}' is no hexadecimal digit"))),
        }
    }
    Ok(written)
}

/// The symbols as they are written, with no dot among them.
pub fn digits(symbols: &[u8]) -> String {
    symbols.iter().map(|symbol| format!("{symbol:X}")).collect()
}

#[cfg(test)]
mod tests {
    use super::{digits, read, Tray};

    #[test]
    fn words_are_read_together() {
        let words = ["1.b9", "5", ".F8"].map(Into::into);
        let written = read(&words).expect("digits and dots");
        assert_eq!(written.lost, [1, 5].map(Tray::new));
        assert_eq!(written.symbols, [1, 0, 11, 9, 5, 0, 15, 8]);
    }

    #[test]
    fn other_marks_are_none() {
        for word in ["12g4", "1-34", "1 34"] {
            assert!(read(&[word.into()]).is_err(), "{word}");
        }
    }

    #[test]
    fn what_is_read_is_written() {
        let written = read(&["10B951F8".into()]).expect("digits");
        assert_eq!(digits(&written.symbols), "10B951F8");
        assert!(written.lost.is_empty());
    }
}
