//! Trays that a person does not want to be used, in all stripes or in some.

use super::shape::Shape;
use crate::failure::Failure;
use crate::terminal::arguments::{Arguments, Setting};
use gesarumbo::Tray;
use std::ops::Range;

pub const INSIST: Setting = Setting::plain(
    "--insist",
    "take the trays of --erase as erased in the stripes that are named, and where nothing is left \
     to test the others by",
);

/// Trays that are not looked at, each in a run of stripes.
#[derive(Clone, Default, PartialEq, Eq, Debug)]
pub struct Erasures {
    list: Vec<(Tray, Range<u32>)>,
    /// Which way is taken of those to put a segment right, where no checksum of it tells.
    pub way: usize,
}

/// All stripes.
const ALL: Range<u32> = 0..u32::MAX;

impl Erasures {
    /// These trays, in all stripes.
    pub fn whole(trays: &[Tray]) -> Erasures {
        Erasures {
            list: trays.iter().map(|tray| (*tray, ALL)).collect(),
            way: 0,
        }
    }

    /// The trays of a setting, T or T:A or T:A-B, with commas between; a part of a tray only where a
    /// person insists.
    pub fn asked(arguments: &Arguments, setting: Setting) -> Result<Erasures, Failure> {
        let Some(text) = arguments.value(setting) else {
            return Ok(Erasures::default());
        };
        let text = text.to_string_lossy();
        let words = text.split(',').filter(|_| !text.is_empty());
        let wrong = |word| {
            let words = format!("{}: '{word}' is no tray T, T:A or T:A-B", setting.name);
            Failure::Usage(words)
        };
        let erased = words.map(|word| erasure(word).ok_or_else(|| wrong(word)));
        let erasures = Erasures {
            list: erased.collect::<Result<_, Failure>>()?,
            way: 0,
        };
        let in_part = erasures.list.iter().any(|(_, run)| *run != ALL);
        match in_part && !arguments.has(INSIST) {
            true => Err(Failure::Usage(format!(
                "{}: some stripes of a tray are erased only with {}",
                setting.name, INSIST.name
            ))),
            false => Ok(erasures),
        }
    }

    /// The trays that are not looked at in a stripe, rising.
    pub fn of(&self, stripe: u32) -> Vec<Tray> {
        let here = self.list.iter().filter(|(_, run)| run.contains(&stripe));
        rising(here.map(|(tray, _)| *tray))
    }

    /// The stripes where a run begins: in one of these the most trays are erased.
    pub fn starts(&self) -> impl Iterator<Item = u32> + '_ {
        self.list.iter().map(|(_, run)| run.start)
    }

    /// All trays that are named, rising.
    pub fn trays(&self) -> Vec<Tray> {
        rising(self.list.iter().map(|(tray, _)| *tray))
    }

    /// Fails where a stripe is named that is not there.
    pub fn judge(&self, cabinet: &Shape) -> Result<(), Failure> {
        let count = cabinet.description.stripes;
        let in_part = self.list.iter().filter(|(_, run)| *run != ALL);
        match in_part
            .map(|(_, run)| run.end - 1)
            .find(|last| *last >= count)
        {
            None => Ok(()),
            Some(stripe) => Err(Failure::Usage(format!(
                "stripe {stripe}: there are only {count}"
            ))),
        }
    }
}

fn rising(trays: impl Iterator<Item = Tray>) -> Vec<Tray> {
    let mut trays: Vec<Tray> = trays.collect();
    trays.sort();
    trays.dedup();
    trays
}

/// A tray, with the stripes after a colon if not all are meant.
fn erasure(word: &str) -> Option<(Tray, Range<u32>)> {
    let Some((tray, stripes)) = word.split_once(':') else {
        return Some((Tray::new(word.parse().ok()?), ALL));
    };
    let (first, last) = stripes.split_once('-').unwrap_or((stripes, stripes));
    let (first, last): (u32, u32) = (first.parse().ok()?, last.parse().ok()?);
    let end = last.checked_add(1).filter(|end| first < *end)?;
    Some((Tray::new(tray.parse().ok()?), first..end))
}

#[cfg(test)]
mod tests {
    use super::{erasure, Erasures, ALL};
    use gesarumbo::Tray;

    #[test]
    fn trays_and_stripes_are_read() {
        assert_eq!(erasure("4"), Some((Tray::new(4), ALL)));
        assert_eq!(erasure("4:7"), Some((Tray::new(4), 7..8)));
        assert_eq!(erasure("4:7-9"), Some((Tray::new(4), 7..10)));
        for wrong in ["", "x", "4:", "4:9-7", "4:7-", ":7", "4:4294967295"] {
            assert_eq!(erasure(wrong), None, "{wrong}");
        }
    }

    #[test]
    fn each_stripe_has_its_own() {
        let list = ["4:7-9", "2", "4:20"].map(|word| erasure(word).expect("a tray"));
        let erasures = Erasures {
            list: list.to_vec(),
            way: 0,
        };
        let of = |stripe| -> Vec<u32> {
            let trays = erasures.of(stripe);
            trays.iter().map(|tray| tray.number()).collect()
        };
        assert_eq!(of(6), [2]);
        assert_eq!(of(9), [2, 4]);
        assert_eq!(of(20), [2, 4]);
    }
}
