//! What stands at a tray's place in a segment.

use crate::failure::{ground, Failure};
use gesarumbo::{Refusal, Tray, ABSENT, DEMONSTRATION, LIVE};
use std::path::Path;

/// What a tray is in a segment.
#[derive(Clone, PartialEq, Eq, Debug)]
pub enum Found {
    /// The library takes its header, and its checksum is right, where it has one.
    Live,
    /// The library takes its header, and its checksum is wrong: some of it is not what was written.
    Rotten,
    Absent,
    /// The medium cannot be read there.
    Unreadable(String),
    /// It may not be read by this command.
    Closed(String),
    /// The library does not take it.
    Refused(Refusal),
    /// It is of another tray of this cabinet.
    Misplaced(Tray),
    /// Its label is of another cabinet or generation.
    Other(String),
}

/// The same in a word.
#[derive(Clone, Copy, PartialEq, Eq, PartialOrd, Ord, Debug)]
pub enum Kind {
    Live,
    Demonstration,
    Absent,
    /// There is a file, and it cannot be used as it is.
    Unusable,
}

impl Kind {
    /// The tray's state as the margin counts it: what cannot be used is absent.
    pub fn state(self) -> u8 {
        match self {
            Kind::Live => LIVE,
            Kind::Demonstration => DEMONSTRATION,
            Kind::Absent | Kind::Unusable => ABSENT,
        }
    }
}

impl Found {
    pub fn kind(&self) -> Kind {
        match self {
            Found::Live => Kind::Live,
            Found::Refused(Refusal::Demonstration) => Kind::Demonstration,
            Found::Absent => Kind::Absent,
            _ => Kind::Unusable,
        }
    }

    /// Whether its symbols are there, right or not.
    pub fn has_symbols(&self) -> bool {
        matches!(self, Found::Live | Found::Rotten)
    }

    /// Why the tray is not used as it is, in words; nothing for a live one.
    pub fn why_not(&self) -> Option<String> {
        match self {
            Found::Live => None,
            Found::Rotten => Some("its checksum is wrong".to_string()),
            Found::Absent => Some("absent".to_string()),
            Found::Unreadable(error) => Some(format!("unreadable: {error}")),
            Found::Closed(error) => Some(format!("cannot be read here: {error}")),
            Found::Refused(refusal) => Some(ground(*refusal)),
            Found::Misplaced(tray) => Some(format!("the file holds tray {tray}")),
            Found::Other(words) => Some(words.clone()),
        }
    }

    /// The failure of a command that cannot do without the tray of this file.
    pub fn failure(&self, path: &Path) -> Failure {
        let about = path.display();
        match self {
            Found::Refused(refusal) => Failure::refused(about)(*refusal),
            Found::Absent => Failure::File(format!("{about}: absent")),
            Found::Unreadable(error) | Found::Closed(error) => {
                Failure::File(format!("{about}: {error}"))
            }
            Found::Live | Found::Rotten | Found::Misplaced(_) | Found::Other(_) => {
                let words = self.why_not().unwrap_or_default();
                Failure::Contents(format!("{about}: {words}"))
            }
        }
    }
}
