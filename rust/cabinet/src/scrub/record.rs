//! What the last scrub that came to its end has found: a small file of its own, for `status`. No
//! command needs it, and where it is lost or cannot be read, nothing is known of a last scrub.

use super::findings::Findings;
use super::Scrub;
use crate::disk::read_part;
use crate::failure::Failure;
use crate::files::cabinet::Cabinet;
use crate::files::faults::Faults;
use crate::files::label::with_check;
use crate::files::{self, output};
use crate::terminal::clock;
use crate::terminal::screen::{Paint, Screen};
use gesarumbo::{checksum, Tray};
use std::collections::BTreeMap;

/// Its name in a cabinet's folder.
pub const NAME: &str = "scrubbed.txt";

/// Bytes of a tray's file that are read at once.
const AT_ONCE: usize = 1 << 20;

/// What a scrub has found.
#[derive(PartialEq, Eq, Debug)]
pub struct Record {
    /// When it ended, in seconds since 1970.
    pub ended: u64,
    /// Layers looked at, and how many of them are bad.
    pub layers: u64,
    pub bad: u64,
    /// The least number of checks that a stripe was tested with.
    pub checks: u32,
    /// The trays that could not be used.
    pub unused: Vec<Tray>,
    pub faults: Faults,
    /// The checksums of the whole files of trays with a fault: a file with another one has been
    /// written since.
    sums: BTreeMap<u32, u64>,
}

impl Record {
    /// The record of a scrub that is over.
    fn of(scrub: &Scrub, cabinet: &Cabinet) -> Record {
        let wrong = scrub.faults.trays().into_iter();
        let sums = wrong.map(|tray| (tray.number(), sum(cabinet, tray)));
        let Findings { at, bad, .. } = scrub.findings;
        Record {
            ended: clock::now(),
            layers: at,
            bad,
            checks: scrub.checks,
            unused: scrub.unused.clone(),
            faults: scrub.faults.clone(),
            sums: sums.collect(),
        }
    }

    /// The record in a cabinet's folder, if there is one of this cabinet.
    pub fn read(cabinet: &Cabinet) -> Result<Option<Record>, Failure> {
        let path = cabinet.file(NAME);
        let found = files::read(cabinet.disk, &path).map_err(Failure::file(&path))?;
        Ok(found.and_then(|bytes| Record::parse(&bytes, &task(cabinet))))
    }

    /// The record as its file has it.
    fn bytes(&self, task: &str) -> Vec<u8> {
        let (ended, layers, bad, checks) = (self.ended, self.layers, self.bad, self.checks);
        let [labels, long] = self.faults.files();
        let [unused, labels, long] = [&self.unused, labels, long].map(numbers);
        let sums = self.sums.iter();
        let sums: String = sums
            .map(|(tray, sum)| format!(" {tray}:{sum:016x}"))
            .collect();
        with_check(&format!(
            "{task}\nended {ended}\nlayers {layers}\nbad {bad}\nchecks {checks}\nunused{unused}\n\
             labels{labels}\nlong{long}\nfiles{sums}\n{}",
            self.faults.line().trim_end()
        ))
    }

    fn parse(bytes: &[u8], task: &str) -> Option<Record> {
        let mut lines = str::from_utf8(bytes).ok()?.lines();
        lines.next().filter(|line| *line == task)?;
        let mut after = |name: &str| lines.next()?.strip_prefix(name);
        let mut record = Record {
            ended: after("ended ")?.parse().ok()?,
            layers: after("layers ")?.parse().ok()?,
            bad: after("bad ")?.parse().ok()?,
            checks: after("checks ")?.parse().ok()?,
            unused: trays(after("unused")?)?,
            faults: Faults::default(),
            sums: BTreeMap::new(),
        };
        let in_files = [trays(after("labels")?)?, trays(after("long")?)?];
        let pair = |word: &str| {
            let (tray, sum) = word.split_once(':')?;
            Some((tray.parse().ok()?, u64::from_str_radix(sum, 16).ok()?))
        };
        let sums = after("files")?.split_whitespace();
        record.sums = sums.map(pair).collect::<Option<_>>()?;
        record.faults = Faults::parse(after("")?)?.with_files(in_files);
        (record.bytes(task) == bytes).then_some(record)
    }

    /// The trays with a fault whose files are still those that were scrubbed.
    pub fn still_wrong(&self, cabinet: &Cabinet) -> Vec<Tray> {
        let trays = self.sums.iter();
        let trays = trays.map(|(tray, known)| (Tray::new(*tray), *known));
        trays
            .filter(|(tray, _)| (tray.number() as usize) < cabinet.numbers.trays)
            .filter(|(tray, known)| sum(cabinet, *tray) == *known)
            .map(|(tray, _)| tray)
            .collect()
    }

    /// Whether all that it looked at was in order.
    pub fn is_sound(&self) -> bool {
        self.bad == 0 && self.faults.is_empty()
    }
}

fn task(cabinet: &Cabinet) -> String {
    format!("last scrub of {}", cabinet.description.key())
}

fn numbers(trays: &[Tray]) -> String {
    trays.iter().map(|tray| format!(" {tray}")).collect()
}

fn trays(words: &str) -> Option<Vec<Tray>> {
    let words = words.split_whitespace();
    words.map(|word| word.parse().ok().map(Tray::new)).collect()
}

/// The checksum of a tray's whole file, part by part, each backwards; 0 where it cannot be read.
/// Forwards, symbols with their own checksum after them would give the same, whatever they are.
fn sum(cabinet: &Cabinet, tray: Tray) -> u64 {
    let file = cabinet.trays[tray.number() as usize].as_ref();
    let Some(Ok(file)) = file.map(|of| &of.file) else {
        return 0;
    };
    let (mut sum, mut at) = (0, 0);
    loop {
        let Ok(mut part) = read_part(&**file, at, AT_ONCE) else {
            return 0;
        };
        part.reverse();
        sum = checksum(sum, &part);
        at += part.len() as u64;
        if part.len() < AT_ONCE {
            return sum;
        }
    }
}

/// Writes the record of a scrub that is over. Where that fails, it is said, and the scrub counts all
/// the same.
pub fn write(scrub: &Scrub, cabinet: &Cabinet, screen: &mut Screen) {
    let bytes = Record::of(scrub, cabinet).bytes(&task(cabinet));
    if let Err(failure) = output::write_own(cabinet.disk, &cabinet.file(NAME), &bytes) {
        let words = screen.paint(Paint::Warning, "no record of this scrub is kept");
        screen.line(format!("  {words}: {failure}"));
    }
}

#[cfg(test)]
mod tests {
    use super::Record;
    use crate::files::faults::Faults;
    use gesarumbo::Tray;

    #[test]
    fn a_record_is_read_as_it_is_written() {
        let mut faults = Faults::default();
        faults.add_wrong(5, &[Tray::new(9)]);
        let record = Record {
            ended: 1_794_962_474,
            layers: 9_600,
            bad: 3,
            checks: 4,
            unused: [1, 2].map(Tray::new).to_vec(),
            faults: faults.with_files([7, 8].map(|tray| vec![Tray::new(tray)])),
            sums: [(7, 1), (9, u64::MAX)].into(),
        };
        let bytes = record.bytes("last scrub of it");
        assert_eq!(Record::parse(&bytes, "last scrub of it"), Some(record));
        assert_eq!(Record::parse(&bytes, "last scrub of another"), None);
        for at in 0..bytes.len() {
            let mut other = bytes.clone();
            other[at] ^= 1;
            assert_eq!(Record::parse(&other, "last scrub of it"), None, "byte {at}");
        }
    }
}
