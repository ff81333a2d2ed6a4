//! The repair of lost trays of one rack from the shares of helper racks.

pub mod card;
pub mod correcting;
pub mod helpers;
pub mod in_groups;
mod meter;
pub mod reading;
pub mod ready;
pub mod shares;
pub mod stripe_repair;
pub mod tally;
pub mod whole;

use crate::failure::Failure;
use crate::files::cabinet::Cabinet;
use crate::files::checkpoint;
use crate::files::rebuild::Rebuilding;
use crate::files::shape::Shape;
use crate::terminal::arguments::{Arguments, Setting};
use crate::terminal::words::trays;
use gesarumbo::{Rack, Tray};
use std::path::{Path, PathBuf};

pub const SPARE: Setting = Setting::with(
    "--spare",
    "FILE",
    "the checkpoint; if not given, DIR/tray-XX.spare with the lost trays' numbers",
);

/// What the work is called in the names of work files.
pub const WORK: &str = "repair";

/// Which trays are repaired, and by whose shares.
#[derive(Clone, PartialEq, Eq, Debug)]
pub struct Repair {
    pub lost: Vec<Tray>,
    pub helpers: Vec<Rack>,
}

impl Repair {
    /// The checkpoint's first line.
    pub fn task(&self, cabinet: &Shape) -> String {
        let helpers: Vec<String> = self.helpers.iter().map(Rack::to_string).collect();
        format!("{}{}", subject(cabinet, &self.lost), helpers.join(" "))
    }

    /// The repair in a checkpoint's first line, if it is of just these trays of this cabinet.
    pub fn parse(task: &str, cabinet: &Shape, lost: &[Tray]) -> Option<Repair> {
        let helpers = task.strip_prefix(&subject(cabinet, lost))?;
        let rack = |word: &str| word.parse().ok().map(Rack::new);
        Some(Repair {
            lost: lost.to_vec(),
            helpers: helpers.split(' ').map(rack).collect::<Option<_>>()?,
        })
    }

    /// The rack of the lost trays, of which there is one at least.
    pub fn host(&self, cabinet: &Shape) -> Rack {
        cabinet.numbers.host_of(&self.lost)
    }

    /// The new files of this repair, with the checkpoint in a file.
    pub fn rebuilding(&self, cabinet: &Shape, path: PathBuf) -> Rebuilding {
        Rebuilding {
            trays: self.lost.clone(),
            work: WORK,
            task: self.task(cabinet),
            path,
        }
    }

    /// The lost trays in words, and whether they are or it is.
    pub fn names(&self) -> (String, &'static str) {
        let are = if self.lost.len() == 1 { "is" } else { "are" };
        (trays(&self.lost), are)
    }
}

/// The line up to the helpers: what anyone knows who knows the lost trays and their cabinet.
fn subject(cabinet: &Shape, lost: &[Tray]) -> String {
    let (lost, cabinet) = (trays(lost), cabinet.description.key());
    format!("repair of {lost} of {cabinet} by racks ")
}

/// The checkpoint that is named, or the one beside the trays' files.
pub fn checkpoint_path(
    arguments: &Arguments,
    cabinet: &Cabinet,
    lost: &[Tray],
) -> Result<PathBuf, Failure> {
    match arguments.value(SPARE).map(PathBuf::from) {
        None => Ok(spare_path(cabinet, lost)),
        Some(named) => checkpoint::guard(cabinet.disk, &named).map(|()| named),
    }
}

/// The checkpoint beside the trays' files.
pub fn spare_path(cabinet: &Shape, lost: &[Tray]) -> PathBuf {
    let numbers: String = lost.iter().map(|tray| format!("-{tray:02}")).collect();
    cabinet.file(&format!("tray{numbers}.spare"))
}

/// A checkpoint that must not be used here.
pub fn foreign(path: &Path) -> Failure {
    Failure::Contents(format!(
        "{}: no checkpoint of this repair; if it is of another repair (other lost trays or \
         cabinet, other helpers, shares or trays), name a file for this one by --spare",
        path.display()
    ))
}

#[cfg(test)]
mod tests {
    use super::Repair;
    use crate::code::field::Field;
    use crate::disk::system::System;
    use crate::files::cabinet::Cabinet;
    use crate::files::description::{Description, Format};
    use gesarumbo::{Layout, Rack, Tray};
    use std::path::Path;

    const DESCRIPTION: Description = Description {
        format: Format::Second,
        layout: Layout::new(4, 3, 8, 3),
        field: Field::Of256,
        volume: 7,
        generation: 5,
        stripes: 2,
        many: 256,
        length: Some(200),
        checksum: Some(0xFEED),
    };

    fn cabinet(description: Description) -> Cabinet<'static> {
        Cabinet::new(&System, Path::new("c"), description).expect("an admissible layout")
    }

    #[test]
    fn a_task_is_read_as_it_is_written() {
        let cabinet = cabinet(DESCRIPTION);
        for (lost, words) in [(&[4][..], "tray 4"), (&[3, 4, 5], "trays 3, 4, 5")] {
            let repair = Repair {
                lost: lost.iter().copied().map(Tray::new).collect(),
                helpers: [0, 2, 3].map(Rack::new).to_vec(),
            };
            let task = repair.task(&cabinet);
            let expected = format!(
                "repair of {words} of (4, 3, 8, 3) volume 7 stripes 2 generation 5 \
                 000000000000feed by racks 0 2 3"
            );
            assert_eq!(task, expected);
            assert_eq!(Repair::parse(&task, &cabinet, &repair.lost), Some(repair));
        }
    }

    #[test]
    fn tasks_of_other_repairs_are_none() {
        let line = Repair {
            lost: vec![Tray::new(4)],
            helpers: [0, 2, 3].map(Rack::new).to_vec(),
        };
        let line = &line.task(&cabinet(DESCRIPTION))[..];
        let reads = |line: &str, description, lost| {
            Repair::parse(line, &cabinet(description), &[Tray::new(lost)]).is_some()
        };
        assert!(reads(line, DESCRIPTION, 4));
        assert!(!reads(line, DESCRIPTION, 40));
        assert!(!reads(&line.replace("tray 4", "tray 40"), DESCRIPTION, 4));
        assert!(!reads(
            &line.replace("tray 4", "trays 4, 5"),
            DESCRIPTION,
            4
        ));
        let others: [fn(&mut Description); 6] = [
            |other| other.volume = 8,
            |other| other.stripes = 1,
            |other| other.generation = 6,
            |other| other.checksum = Some(0),
            |other| other.layout = Layout::new(4, 3, 7, 3),
            |other| {
                other.layout = Layout::new(4, 1, 2, 3);
                other.field = Field::Of257;
            },
        ];
        for change in others {
            let mut other = DESCRIPTION;
            change(&mut other);
            assert!(!reads(line, other, 4));
        }
        for broken in ["", "repair", &line[..60], &line.replace("0 2", "0  2")] {
            assert!(!reads(broken, DESCRIPTION, 4), "{broken}");
        }
    }
}
