//! Every way a command can end badly: its exit status and its words.

use gesarumbo::Refusal;
use std::fmt;
use std::io;
use std::path::Path;

/// Why a command ended without doing its work.
#[derive(Clone, Debug)]
pub enum Failure {
    /// The library said no; `about` says to what.
    Refused { about: String, refusal: Refusal },
    /// The words on the command line make no sense.
    Usage(String),
    /// A file was read, but what it holds cannot be used.
    Contents(String),
    /// The command and the library disagree about a layout.
    Internal(String),
    /// A file or folder could not be read or written.
    File(String),
}

/// How a command ended that did its work.
#[derive(Clone, Copy, PartialEq, Eq, PartialOrd, Ord, Debug, Default)]
pub enum Outcome {
    #[default]
    Done,
    /// Something that was wrong is named and has been put right.
    Healed,
    /// Not all of it could be held against checks or checksums.
    NotTested,
}

impl Outcome {
    /// The exit status.
    pub fn status(self) -> u8 {
        match self {
            Outcome::Done => 0,
            Outcome::NotTested => NOT_TESTED,
            Outcome::Healed => HEALED,
        }
    }

    /// What a report calls it.
    pub fn name(self) -> &'static str {
        match self {
            Outcome::Done => "done",
            Outcome::NotTested => "not_tested",
            Outcome::Healed => "healed",
        }
    }
}

/// Exit statuses above the refusals' numbers, with their meaning; from 64 on those of sysexits.h.
pub const STATUSES: [(u8, &str); 6] = [
    (
        NOT_TESTED,
        "done, but not all of it could be tested: trays are missing, or there is no tray to spare",
    ),
    (
        HEALED,
        "done, and what was wrong is named and was put right in what was written",
    ),
    (USAGE, "the command line makes no sense"),
    (
        CONTENTS,
        "a file's contents cannot be used, or a test found something wrong",
    ),
    (INTERNAL, "building failed, or command and library disagree"),
    (FILE, "a file or folder cannot be read or written"),
];

const NOT_TESTED: u8 = 16;
const HEALED: u8 = 17;
const USAGE: u8 = 64;
const CONTENTS: u8 = 65;
const INTERNAL: u8 = 70;
const FILE: u8 = 74;

/// Every refusal, in order of their numbers.
pub fn refusals() -> impl Iterator<Item = Refusal> {
    (1..u32::from(NOT_TESTED)).filter_map(Refusal::from_number)
}

impl Failure {
    /// For `map_err`: the library refused something about `about`.
    pub fn refused(about: impl fmt::Display) -> impl FnOnce(Refusal) -> Failure {
        move |refusal| Failure::Refused {
            about: about.to_string(),
            refusal,
        }
    }

    /// For `map_err`: the system could not read or write `path`.
    pub fn file(path: &Path) -> impl FnOnce(io::Error) -> Failure + '_ {
        move |error| Failure::File(format!("{}: {error}", path.display()))
    }

    /// The same failure, with the place where it happened in front.
    pub fn at(self, place: &str) -> Failure {
        let placed = |words: String| format!("{place}{words}");
        match self {
            Failure::Refused { about, refusal } => Failure::Refused {
                about: placed(about),
                refusal,
            },
            Failure::Usage(words) => Failure::Usage(placed(words)),
            Failure::Contents(words) => Failure::Contents(placed(words)),
            Failure::Internal(words) => Failure::Internal(placed(words)),
            Failure::File(words) => Failure::File(placed(words)),
        }
    }

    /// The exit status: the refusal's number, or one above them all.
    pub fn status(&self) -> u8 {
        match self {
            Failure::Refused { refusal, .. } => u8::try_from(refusal.number()).unwrap_or(INTERNAL),
            Failure::Usage(_) => USAGE,
            Failure::Contents(_) => CONTENTS,
            Failure::Internal(_) => INTERNAL,
            Failure::File(_) => FILE,
        }
    }

    /// What a report calls it.
    pub fn name(&self) -> &'static str {
        match self {
            Failure::Refused { .. } => "refused",
            Failure::Usage(_) => "usage",
            Failure::Contents(_) => "contents",
            Failure::Internal(_) => "internal",
            Failure::File(_) => "file",
        }
    }
}

impl fmt::Display for Failure {
    fn fmt(&self, out: &mut fmt::Formatter<'_>) -> fmt::Result {
        match self {
            Failure::Refused { about, refusal } => write!(out, "{about}: {}", ground(*refusal)),
            Failure::Usage(words)
            | Failure::Contents(words)
            | Failure::Internal(words)
            | Failure::File(words) => out.write_str(words),
        }
    }
}

/// A refusal in words, with its number.
pub fn ground(refusal: Refusal) -> String {
    format!("refused ({}): {refusal}", refusal.number())
}
