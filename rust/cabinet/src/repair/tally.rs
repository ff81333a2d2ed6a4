//! What a repair has found in the stripes that it has done.

use crate::failure::Outcome;
use crate::files::cabinet::Cabinet;
use crate::files::faults::Faults;
use crate::terminal::json::Json;
use crate::terminal::screen::{Paint, Screen};
use crate::terminal::words::count;
use gesarumbo::Rack;
use std::collections::BTreeMap;

/// Counts of stripes, and the faults of trays.
#[derive(Default, PartialEq, Eq, Debug)]
pub struct Tally {
    /// Those that could not be tested: there was no tray to spare.
    pub untested: u32,
    /// Those whose shares did not give the tray that fits: it was recovered from the trays.
    pub recovered: u32,
    /// Those in which a rack's share was wrong, by the rack.
    pub wrong: BTreeMap<u32, u32>,
    /// Those in which this rack's trays do not fit to the others.
    pub unfit: BTreeMap<u32, u32>,
    /// What is wrong with trays that were used or held against.
    pub faults: Faults,
}

impl Tally {
    /// Counts a stripe in which a rack's share was wrong.
    pub fn add_wrong(&mut self, rack: Rack) {
        *self.wrong.entry(rack.number()).or_default() += 1;
    }

    /// Counts a stripe in which a rack's trays do not fit to the others.
    pub fn add_unfit(&mut self, rack: Rack) {
        *self.unfit.entry(rack.number()).or_default() += 1;
    }

    /// How a repair ends that has found this.
    pub fn outcome(&self) -> Outcome {
        let is_clear = self.recovered == 0 && self.wrong.is_empty() && self.faults.is_empty();
        match (self.untested, is_clear) {
            (0, true) => Outcome::Done,
            (0, false) => Outcome::Healed,
            _ => Outcome::NotTested,
        }
    }

    /// Whether all trays together are sound, in words.
    pub fn tested(&self, cabinet: &Cabinet, screen: &Screen) -> String {
        let stripes = cabinet.description.stripes;
        let place = match self.untested {
            0 => {
                let sound = screen.paint(Paint::Good, "sound");
                return match self.faults.is_empty() {
                    true => format!("all trays together are {sound}"),
                    false => format!("all trays but {} are {sound}", self.faults.words()),
                };
            }
            all if all == stripes => String::new(),
            some => format!(" in {some} of {}", count(stripes as usize, "stripe")),
        };
        format!("not tested{place}: no tray to spare")
    }

    /// The tally as a report has it.
    pub fn report(&self, screen: &mut Screen) {
        let racks = |counts: &BTreeMap<u32, u32>| {
            Json::list(counts, |(rack, stripes)| {
                Json::object([("rack", (*rack).into()), ("stripes", (*stripes).into())])
            })
        };
        screen.fact("whole", true);
        screen.fact("stripes_untested", self.untested);
        screen.fact("stripes_recovered", self.recovered);
        screen.fact("wrong_shares", racks(&self.wrong));
        screen.fact("faults", self.faults.json());
    }

    /// The tally as a checkpoint has it, in two lines.
    pub fn lines(&self) -> String {
        let pairs = |counts: &BTreeMap<u32, u32>| -> String {
            let pairs = counts
                .iter()
                .map(|(rack, count)| format!(" {rack}:{count}"));
            pairs.collect()
        };
        let (wrong, unfit) = (pairs(&self.wrong), pairs(&self.unfit));
        let (untested, recovered) = (self.untested, self.recovered);
        let faults = self.faults.line();
        format!("untested {untested} recovered {recovered} wrong{wrong} unfit{unfit}\n{faults}")
    }

    /// The tally in front of a checkpoint's own part, and what is after it.
    pub fn parse(rest: &[u8]) -> Option<(Tally, &[u8])> {
        let (line, rest) = line(rest)?;
        let (untested, counts) = line.strip_prefix("untested ")?.split_once(" recovered ")?;
        let (recovered, counts) = counts.split_once(" wrong")?;
        let (wrong, unfit) = counts.split_once(" unfit")?;
        let (faults, rest) = self::line(rest)?;
        let tally = Tally {
            untested: untested.parse().ok()?,
            recovered: recovered.parse().ok()?,
            wrong: counts_of(wrong)?,
            unfit: counts_of(unfit)?,
            faults: Faults::parse(faults)?,
        };
        Some((tally, rest))
    }
}

/// The first line, and what follows.
fn line(rest: &[u8]) -> Option<(&str, &[u8])> {
    let end = rest.iter().position(|byte| *byte == b'\n')?;
    Some((str::from_utf8(&rest[..end]).ok()?, &rest[end + 1..]))
}

fn counts_of(words: &str) -> Option<BTreeMap<u32, u32>> {
    let pair = |word: &str| {
        let (rack, count) = word.split_once(':')?;
        Some((rack.parse().ok()?, count.parse().ok()?))
    };
    words.split_whitespace().map(pair).collect()
}

#[cfg(test)]
mod tests {
    use super::{Rack, Tally};
    use gesarumbo::Tray;

    #[test]
    fn a_tally_is_read_as_it_is_written() {
        let mut tally = Tally {
            untested: 3,
            recovered: 1,
            ..Tally::default()
        };
        let empty = "untested 3 recovered 1 wrong unfit\nwrong unsummed unsure\n";
        assert_eq!(tally.lines(), empty);
        tally.add_wrong(Rack::new(3));
        tally.add_wrong(Rack::new(3));
        tally.add_wrong(Rack::new(11));
        tally.add_unfit(Rack::new(3));
        tally.faults.add_wrong(5, &[Tray::new(9)]);
        let full = "untested 3 recovered 1 wrong 3:2 11:1 unfit 3:1\nwrong 9:5-6 unsummed unsure\n";
        assert_eq!(tally.lines(), full);
        let rest = [tally.lines().as_bytes(), b"more\n"].concat();
        assert_eq!(Tally::parse(&rest), Some((tally, &b"more\n"[..])));
        for broken in [
            "",
            "untested 3",
            "untested x recovered 0 wrong unfit\nwrong unsummed unsure\n",
            "untested 1 recovered 0 wrong 3 unfit\nwrong unsummed unsure\n",
            "untested 1 recovered 0 wrong unfit\n",
        ] {
            assert_eq!(Tally::parse(broken.as_bytes()), None, "{broken}");
        }
    }
}
