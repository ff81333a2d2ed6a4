//! How each tray of a cabinet stands: in one word, and why.

use crate::failure::ground;
use crate::files::cabinet::Cabinet;
use crate::files::found::Found;
use crate::files::survey::{stripes, Survey};
use crate::terminal::json::Json;
use crate::terminal::screen::{Paint, Screen};
use gesarumbo::{Refusal, Tray};

/// How a tray stands.
#[derive(Clone, Copy, PartialEq, Eq, PartialOrd, Ord, Debug)]
pub enum Standing {
    /// Its headers are taken everywhere, and its checksums are right, where it has some.
    Live,
    /// It was reset: it holds no records.
    Demonstration,
    Absent,
    /// Its label is of another generation or cabinet.
    Stale,
    /// It is damaged, of another place, layout or volume, its label cannot be read or its file is too
    /// long.
    Bad,
    /// It may not be read by this command.
    Closed,
}

impl Standing {
    pub const ALL: [Standing; 6] = [
        Standing::Live,
        Standing::Demonstration,
        Standing::Absent,
        Standing::Stale,
        Standing::Bad,
        Standing::Closed,
    ];

    fn of(found: &Found) -> Standing {
        match found {
            Found::Live => Standing::Live,
            Found::Absent => Standing::Absent,
            Found::Refused(Refusal::Demonstration) => Standing::Demonstration,
            Found::Other(_) => Standing::Stale,
            Found::Closed(_) => Standing::Closed,
            Found::Rotten | Found::Unreadable(_) | Found::Refused(_) | Found::Misplaced(_) => {
                Standing::Bad
            }
        }
    }

    pub fn paint(self) -> Paint {
        match self {
            Standing::Live => Paint::Good,
            Standing::Absent => Paint::Strong,
            Standing::Demonstration | Standing::Stale | Standing::Closed => Paint::Warning,
            Standing::Bad => Paint::Bad,
        }
    }

    /// The word for it.
    pub fn word(self) -> &'static str {
        match self {
            Standing::Live => "live",
            Standing::Demonstration => "demonstration",
            Standing::Absent => "absent",
            Standing::Stale => "stale",
            Standing::Bad => "bad",
            Standing::Closed => "closed",
        }
    }
}

/// A tray, how it stands, and why it is not live.
pub struct Stands {
    pub tray: Tray,
    pub standing: Standing,
    pub why: Option<String>,
}

impl Stands {
    /// In words, painted on a terminal.
    pub fn words(&self, screen: &Screen) -> String {
        let word = screen.paint(self.standing.paint(), self.standing.word());
        match &self.why {
            Some(why) => format!("tray {} is {word}: {why}", self.tray),
            None => format!("tray {} is {word}", self.tray),
        }
    }
}

/// All trays of a cabinet.
pub fn of(cabinet: &Cabinet, survey: &Survey) -> Vec<Stands> {
    let (unlabelled, long) = (cabinet.unlabelled(), cabinet.too_long());
    let trays = cabinet.numbers.all_trays().zip(&survey.first);
    trays
        .map(|(tray, first)| match first {
            Some((found, run)) => {
                let place = match (found, cabinet.geometry.segments()) {
                    (Found::Absent | Found::Other(_) | Found::Closed(_), _) | (_, 1) => {
                        String::new()
                    }
                    _ => format!(" in {}", stripes(run)),
                };
                Stands {
                    tray,
                    standing: Standing::of(found),
                    why: why(found).map(|why| format!("{why}{place}")),
                }
            }
            None if long.contains(&tray) => Stands {
                tray,
                standing: Standing::Bad,
                why: Some("its file is too long".to_string()),
            },
            None if unlabelled.contains(&tray) => Stands {
                tray,
                standing: Standing::Bad,
                why: Some("its label cannot be read".to_string()),
            },
            None => Stands {
                tray,
                standing: Standing::Live,
                why: None,
            },
        })
        .collect()
}

/// Why a tray is not live, beyond the word for it.
fn why(found: &Found) -> Option<String> {
    match found {
        Found::Absent => None,
        Found::Refused(Refusal::Demonstration) => Some(ground(Refusal::Demonstration)),
        other => other.why_not(),
    }
}

/// The trays as a report has them.
pub fn json(cabinet: &Cabinet, survey: &Survey) -> Json {
    Json::list(of(cabinet, survey), |stands| {
        Json::object([
            ("tray", stands.tray.number().into()),
            ("rack", cabinet.numbers.rack_of(stands.tray).number().into()),
            ("state", stands.standing.word().into()),
            ("reason", stands.why.into()),
        ])
    })
}
