//! What is wrong in a cabinet, by tray: the stripes in which a tray holds wrong symbols, and wrong
//! checksums and labels where all symbols are right.

use super::found::Found;
use super::mend::Mended;
use super::segment::Segment;
use crate::code::symbol::Symbol;
use crate::files::cabinet::Cabinet;
use crate::terminal::json::Json;
use crate::terminal::screen::{Paint, Screen};
use crate::terminal::words::hanging;
use crate::terminal::{report, runs};
use gesarumbo::Tray;
use std::collections::BTreeMap;
use std::ops::Range;

/// No more runs of stripes are kept of a tray; those that follow widen the last.
const MOST_RUNS: usize = 256;

/// Runs of stripes, rising.
type Runs = Vec<Range<u64>>;

/// The faults found so far.
#[derive(Default, PartialEq, Eq, Debug, Clone)]
pub struct Faults {
    /// By tray: the stripes in which it is wrong.
    wrong: BTreeMap<u32, Runs>,
    /// By tray: the stripes whose checksum is wrong though their symbols are right.
    unsummed: BTreeMap<u32, Runs>,
    /// By tray: the stripes whose checksum is wrong and which could not be put right.
    unsure: BTreeMap<u32, Runs>,
    /// Trays that are used and whose label cannot be read.
    labels: Vec<Tray>,
    /// Trays that are used and whose files go on after their last segment.
    long: Vec<Tray>,
}

impl Faults {
    /// Takes in a segment that was put right.
    pub fn add<S: Symbol>(&mut self, segment: &Segment<S>, mended: &[Mended<S>]) {
        let rotten = |tray: &Tray| *segment.found(*tray) == Found::Rotten;
        for tray in segment.cabinet.numbers.all_trays().filter(rotten) {
            if !mended.iter().any(|one| one.wrong.contains(&tray)) {
                let stripes = &segment.stripes;
                let run = u64::from(stripes.start)..u64::from(stripes.end);
                add_run(self.unsummed.entry(tray.number()).or_default(), run);
            }
        }
        for (stripe, one) in segment.stripes.clone().zip(mended) {
            self.add_wrong(stripe, &one.wrong);
        }
    }

    /// Takes in a segment that could not be put right.
    pub fn add_unsure<S: Symbol>(&mut self, segment: &Segment<S>) {
        let stripes = &segment.stripes;
        let run = u64::from(stripes.start)..u64::from(stripes.end);
        for tray in segment.stripe(stripes.start).rotten() {
            add_run(self.unsure.entry(tray.number()).or_default(), run.clone());
        }
    }

    /// Takes in the trays whose label cannot be read or whose file is too long, but for those that
    /// cannot be used at all.
    pub fn add_files(&mut self, cabinet: &Cabinet, unused: &[Tray]) {
        let but = |trays: Vec<Tray>| -> Vec<Tray> {
            let used = trays.into_iter().filter(|tray| !unused.contains(tray));
            used.collect()
        };
        (self.labels, self.long) = (but(cabinet.unlabelled()), but(cabinet.too_long()));
    }

    /// Takes in the wrong trays of a stripe.
    pub fn add_wrong(&mut self, stripe: u32, trays: &[Tray]) {
        let run = u64::from(stripe)..u64::from(stripe) + 1;
        for tray in trays {
            add_run(self.wrong.entry(tray.number()).or_default(), run.clone());
        }
    }

    pub fn is_empty(&self) -> bool {
        let by_tray = [&self.wrong, &self.unsummed, &self.unsure];
        let is_none = self.labels.is_empty() && self.long.is_empty();
        by_tray.iter().all(|faults| faults.is_empty()) && is_none
    }

    /// The trays with a fault.
    pub fn trays(&self) -> Vec<Tray> {
        let keys = self.wrong.keys().chain(self.unsummed.keys());
        let mut trays: Vec<u32> = keys.chain(self.unsure.keys()).copied().collect();
        let files = self.labels.iter().chain(&self.long);
        trays.extend(files.map(|tray| tray.number()));
        trays.sort();
        trays.dedup();
        trays.into_iter().map(Tray::new).collect()
    }

    /// Prints a line for each fault.
    pub fn say(&self, cabinet: &Cabinet, screen: &mut Screen) {
        let place = |runs: &Runs| match (cabinet.description.stripes, &runs[..]) {
            (1, _) => String::new(),
            (_, [run]) if run.end - run.start == 1 => format!(" in stripe {}", run.start),
            _ => format!(" in stripes {}", runs::named(runs)),
        };
        for (tray, runs) in &self.wrong {
            let words = screen.paint(Paint::Bad, "holds wrong symbols");
            screen.line(hanging(
                "  ",
                &format!("tray {tray} {words}{}", place(runs)),
            ));
        }
        for (tray, runs) in &self.unsummed {
            let words = screen.paint(Paint::Warning, "has a wrong checksum");
            let text = format!("tray {tray} {words}{}; its symbols are right", place(runs));
            screen.line(hanging("  ", &text));
        }
        for (tray, runs) in &self.unsure {
            let words = screen.paint(Paint::Bad, "has a wrong checksum");
            let text = format!(
                "tray {tray} {words}{}; which symbols are wrong cannot be told",
                place(runs)
            );
            screen.line(hanging("  ", &text));
        }
        for tray in &self.labels {
            let words = screen.paint(Paint::Warning, "label cannot be read");
            screen.line(format!("  tray {tray}'s {words}"));
        }
        for tray in &self.long {
            let words = screen.paint(Paint::Warning, "file is too long");
            screen.line(format!(
                "  tray {tray}'s {words}: bytes follow its last segment"
            ));
        }
    }

    /// The faults in a few words.
    pub fn words(&self) -> String {
        let trays: Vec<String> = self.trays().iter().map(Tray::to_string).collect();
        match &trays[..] {
            [tray] => format!("tray {tray}"),
            _ => format!("trays {}", trays.join(", ")),
        }
    }

    /// The trays whose label cannot be read, and those whose file is too long, which the line does
    /// not have.
    pub fn files(&self) -> [&[Tray]; 2] {
        [&self.labels, &self.long]
    }

    /// The same faults, with these trays' labels and these files that are too long.
    pub fn with_files(self, [labels, long]: [Vec<Tray>; 2]) -> Faults {
        Faults {
            labels,
            long,
            ..self
        }
    }

    /// The faults as a report has them.
    pub fn json(&self) -> Json {
        let kinds = [
            ("wrong_symbols", &self.wrong),
            ("wrong_checksum", &self.unsummed),
            ("unsure", &self.unsure),
        ];
        let fault = |kind: &'static str, tray: u32, runs: &[Range<u64>]| {
            Json::object([
                ("tray", tray.into()),
                ("fault", kind.into()),
                ("stripes", report::runs(runs)),
            ])
        };
        let mut all = Vec::new();
        for (kind, by_tray) in kinds {
            let of_kind = by_tray.iter();
            all.extend(of_kind.map(|(tray, runs)| fault(kind, *tray, runs)));
        }
        let labels = self.labels.iter();
        all.extend(labels.map(|tray| fault("label", tray.number(), &[])));
        let long = self.long.iter();
        all.extend(long.map(|tray| fault("too_long", tray.number(), &[])));
        Json::List(all)
    }

    /// The faults as a checkpoint has them, in a line.
    pub fn line(&self) -> String {
        let all = |faults: &BTreeMap<u32, Runs>| -> String {
            let of_tray = |(tray, runs): (&u32, &Runs)| {
                let runs: Vec<String> = runs
                    .iter()
                    .map(|run| format!("{}-{}", run.start, run.end))
                    .collect();
                format!(" {tray}:{}", runs.join(","))
            };
            faults.iter().map(of_tray).collect()
        };
        let (wrong, unsummed, unsure) = (all(&self.wrong), all(&self.unsummed), all(&self.unsure));
        format!("wrong{wrong} unsummed{unsummed} unsure{unsure}\n")
    }

    /// The faults of such a line.
    pub fn parse(line: &str) -> Option<Faults> {
        let (wrong, rest) = line.strip_prefix("wrong")?.split_once(" unsummed")?;
        let (unsummed, unsure) = rest.split_once(" unsure")?;
        Some(Faults {
            wrong: faults_of(wrong)?,
            unsummed: faults_of(unsummed)?,
            unsure: faults_of(unsure)?,
            labels: Vec::new(),
            long: Vec::new(),
        })
    }
}

fn faults_of(words: &str) -> Option<BTreeMap<u32, Runs>> {
    let run = |word: &str| {
        let (start, end) = word.split_once('-')?;
        Some(start.parse().ok()?..end.parse().ok()?)
    };
    let of_tray = |word: &str| {
        let (tray, runs) = word.split_once(':')?;
        let runs: Option<Runs> = runs.split(',').map(run).collect();
        Some((tray.parse().ok()?, runs?))
    };
    words.split_whitespace().map(of_tray).collect()
}

/// Adds a run at or after the end of those there are.
fn add_run(runs: &mut Runs, run: Range<u64>) {
    let is_full = runs.len() >= MOST_RUNS;
    match runs.last_mut() {
        Some(last) if run.start <= last.end || is_full => last.end = last.end.max(run.end),
        _ => runs.push(run),
    }
}

#[cfg(test)]
mod tests {
    use super::Faults;
    use gesarumbo::Tray;

    #[test]
    fn faults_are_read_as_they_are_written() {
        let mut faults = Faults::default();
        for (stripe, trays) in [(0, &[3][..]), (1, &[3, 7]), (5, &[3])] {
            let trays: Vec<Tray> = trays.iter().copied().map(Tray::new).collect();
            faults.add_wrong(stripe, &trays);
        }
        assert_eq!(faults.line(), "wrong 3:0-2,5-6 7:1-2 unsummed unsure\n");
        assert_eq!(Faults::parse(faults.line().trim_end()), Some(faults));
    }
}
