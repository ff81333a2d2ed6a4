//! A look at every tray of every segment: which trays are not live, and how many more may be lost.

use super::cabinet::Cabinet;
use super::found::{Found, Kind};
use super::segment::Segment;
use super::shape::Shape;
use crate::code::symbol::Symbol;
use crate::failure::Failure;
use crate::terminal::screen::{Paint, Screen};
use gesarumbo::Tray;
use std::ops::Range;

/// Says of each tray that is not live why it is not used, the first time it is met.
#[derive(Default)]
pub struct Unused {
    said: Vec<Tray>,
}

impl Unused {
    /// Prints a line for each tray that cannot be used in this segment, and could in those before
    /// it.
    fn say(&mut self, cabinet: &Shape, met: &Met, screen: &mut Screen) {
        for (tray, found) in cabinet.numbers.all_trays().zip(&met.found) {
            if found.has_symbols() || self.said.contains(&tray) {
                continue;
            }
            self.said.push(tray);
            let why = screen.paint(Paint::Warning, &found.why_not().unwrap_or_default());
            let place = match (found, cabinet.geometry.segments()) {
                (Found::Absent | Found::Other(_) | Found::Closed(_), _) | (_, 1) => String::new(),
                _ => format!(" in {}", stripes(&met.stripes)),
            };
            screen.line(format!("  tray {tray:>2} is not used{place}: {why}"));
        }
    }

    /// Prints the heading with the first segment, and a line for each tray that cannot be used.
    pub fn begin_or_say<S: Symbol>(
        unused: &mut Option<Unused>,
        segment: &Segment<S>,
        screen: &mut Screen,
    ) {
        Unused::begin_or_say_met(unused, segment.cabinet, &Met::of(segment), screen);
    }

    /// The same for a segment that was met before.
    pub fn begin_or_say_met(
        unused: &mut Option<Unused>,
        cabinet: &Shape,
        met: &Met,
        screen: &mut Screen,
    ) {
        if unused.is_none() {
            screen.heading(cabinet.description.words());
        }
        let unused = unused.get_or_insert_with(Unused::default);
        unused.say(cabinet, met, screen);
    }

    /// The trays that were met and cannot be used.
    pub fn trays(unused: Option<Unused>) -> Vec<Tray> {
        let mut trays = unused.map(|unused| unused.said).unwrap_or_default();
        trays.sort();
        trays
    }
}

/// A run of stripes in words.
pub fn stripes(run: &Range<u32>) -> String {
    match run.len() {
        1 => format!("stripe {}", run.start),
        _ => format!("stripes {}-{}", run.start, run.end - 1),
    }
}

/// Prints whose segment this is, and why each tray that is not live is not used.
pub fn introduce<S: Symbol>(segment: &Segment<S>, screen: &mut Screen) {
    Unused::begin_or_say(&mut None, segment, screen);
}

/// What stands at each tray's place in some stripes.
pub struct Met {
    found: Vec<Found>,
    stripes: Range<u32>,
}

impl Met {
    pub fn of<S: Symbol>(segment: &Segment<S>) -> Met {
        Met {
            found: segment.found.clone(),
            stripes: segment.stripes.clone(),
        }
    }
}

/// What all segments together are.
pub struct Survey {
    /// One kind a tray: live if it is in every segment, else that of the first where it is not.
    pub kinds: Vec<Kind>,
    /// The trays with a wrong checksum somewhere.
    pub rotten: Vec<Tray>,
    /// The trays that may not be read by this command.
    pub closed: Vec<(Tray, String)>,
    /// By tray: what stands at its place in the first segment where it is not live, and the stripes
    /// of that.
    pub first: Vec<Option<(Found, Range<u32>)>>,
    /// The least margin of a segment.
    pub margin: i32,
    /// The stripes of the first segment with it.
    pub worst: Range<u32>,
}

impl Survey {
    /// Looks at all segments, and says why each tray that is not live is not used.
    pub fn of<S: Symbol>(cabinet: &Cabinet, screen: &mut Screen) -> Result<Survey, Failure> {
        let (mut survey, mut unused) = (None, None);
        cabinet.over(cabinet.segments_from(0), Ok, |segment: Segment<S>| {
            Unused::begin_or_say(&mut unused, &segment, screen);
            match &mut survey {
                None => survey = Some(Survey::first(&segment)?),
                Some(survey) => survey.add(&segment)?,
            }
            Ok(())
        })?;
        survey.ok_or_else(|| Failure::Internal("a cabinet without stripes".to_string()))
    }

    fn first<S: Symbol>(segment: &Segment<S>) -> Result<Survey, Failure> {
        let mut survey = Survey {
            kinds: segment.kinds(),
            rotten: Vec::new(),
            closed: Vec::new(),
            first: vec![None; segment.found.len()],
            margin: i32::MAX,
            worst: segment.stripes.clone(),
        };
        survey.add(segment)?;
        Ok(survey)
    }

    fn add<S: Symbol>(&mut self, segment: &Segment<S>) -> Result<(), Failure> {
        let kinds = segment.kinds();
        for (known, here) in self.kinds.iter_mut().zip(&kinds) {
            if *known == Kind::Live {
                *known = *here;
            }
        }
        for tray in segment.cabinet.numbers.all_trays() {
            match segment.found(tray) {
                Found::Rotten if !self.rotten.contains(&tray) => self.rotten.push(tray),
                Found::Closed(words) if self.closed.iter().all(|(known, _)| *known != tray) => {
                    self.closed.push((tray, words.clone()));
                }
                _ => {}
            }
        }
        for (first, found) in self.first.iter_mut().zip(&segment.found) {
            if first.is_none() && *found != Found::Live {
                *first = Some((found.clone(), segment.stripes.clone()));
            }
        }
        let margin = margin::<S>(segment.cabinet, &kinds)?;
        if margin < self.margin {
            (self.margin, self.worst) = (margin, segment.stripes.clone());
        }
        Ok(())
    }

    /// The trays that are not live in every segment.
    pub fn damaged(&self) -> Vec<Tray> {
        let trays = (0..).map(Tray::new).zip(&self.kinds);
        let damaged = trays.filter(|(_, kind)| **kind != Kind::Live);
        damaged.map(|(tray, _)| tray).collect()
    }
}

/// How many trays more may be lost, of these kinds.
pub fn margin<S: Symbol>(cabinet: &Shape, kinds: &[Kind]) -> Result<i32, Failure> {
    let states: Vec<u8> = kinds.iter().map(|kind| kind.state()).collect();
    (S::CALLS.margin)(cabinet.description.layout, &states).map_err(Failure::refused("margin"))
}
