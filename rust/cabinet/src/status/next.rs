//! What to type next: the one line that does the most for a cabinet as it stands.

use super::standing::{Standing, Stands};
use super::work::{Task, Work};
use super::{LastScrub, Status};
use crate::terminal::words::{self, trays};
use gesarumbo::Tray;
use std::path::Path;

/// A line to type, and why; where nothing that can be typed helps, what to do.
#[derive(Debug)]
pub struct Next {
    pub line: Option<String>,
    pub why: String,
}

/// A scrub is asked for again after as many seconds: thirty days.
const OLD: u64 = 30 * 86_400;

impl Next {
    /// What is next for a cabinet in this state.
    pub fn of(status: &Status, now: u64) -> Next {
        let folder = status.cabinet.folder();
        let line = |command: &str| Some(format!("cabinet {command} {}", quoted(folder)));
        let (line, why) = match () {
            () if has(status, Standing::Closed) => (
                line("status"),
                format!(
                    "{} may not be read: give the right to read first",
                    of(status, Standing::Closed)
                ),
            ),
            () if status.cabinet.newer().next().is_some() => newer(status, line("replace")),
            () if gone(status) > status.cabinet.numbers.checks => (
                line("status"),
                format!(
                    "too few trays are live by {}: put the files of absent trays back first",
                    -status.survey.margin
                ),
            ),
            () if status.survey.margin < 0 => (
                line("fix"),
                "too few trays are right everywhere: it tries stripe by stripe".to_string(),
            ),
            () if status.is_broken() => (line("fix"), "writes anew what is broken".to_string()),
            () if has_task(status, Task::Store) => {
                (None, "a store was cut: run its line again".to_string())
            }
            () if status.work.iter().any(|work| work.task != Task::Scrub) => (
                line("fix"),
                "ends or clears away what was begun".to_string(),
            ),
            () if has_task(status, Task::Scrub) => scrub(status, line("scrub")),
            () => match &status.scrub {
                LastScrub::None => (line("scrub"), "no scrub is known".to_string()),
                LastScrub::Of(record) if record.ended.saturating_add(OLD) < now => (
                    line("scrub"),
                    "the last is more than 30 days ago".to_string(),
                ),
                LastScrub::Of(record) if !record.unused.is_empty() => (
                    line("scrub"),
                    "trays have come back since the last".to_string(),
                ),
                LastScrub::Of(_) => (None, "nothing".to_string()),
            },
        };
        Next { line, why }
    }
}

/// How an open scrub goes on; one whose checkpoint cannot be used begins anew.
fn scrub(status: &Status, line: Option<String>) -> (Option<String>, String) {
    let goes_on = |work: &Work| work.task == Task::Scrub && work.done.is_some();
    match status.work.iter().any(goes_on) {
        true => (line, "goes on where it ended".to_string()),
        false => {
            let line = line.map(|line| format!("{line} --reset"));
            (line, "its checkpoint cannot be gone on with".to_string())
        }
    }
}

/// Trays that may be newer than all others are written over only where a person names them.
fn newer(status: &Status, line: Option<String>) -> (Option<String>, String) {
    let trays: Vec<Tray> = status.cabinet.newer().map(|(file, _)| file.tray).collect();
    let numbers: Vec<String> = trays.iter().map(Tray::to_string).collect();
    let words = words::trays(&trays);
    (
        line.map(|line| format!("{line} {}", numbers.join(","))),
        format!("{words} may be of a newer store than the others: only if that is not so"),
    )
}

/// How many trays hold nothing of this cabinet.
fn gone(status: &Status) -> usize {
    let gone = [Standing::Absent, Standing::Stale, Standing::Demonstration];
    let all = status.trays.iter();
    all.filter(|of| gone.contains(&of.standing)).count()
}

fn has(status: &Status, standing: Standing) -> bool {
    status.trays.iter().any(|of| of.standing == standing)
}

fn of(status: &Status, standing: Standing) -> String {
    let all = status.trays.iter();
    let all = all.filter(|of: &&Stands| of.standing == standing);
    trays(&all.map(|of| of.tray).collect::<Vec<Tray>>())
}

fn has_task(status: &Status, task: Task) -> bool {
    status.work.iter().any(|work: &Work| work.task == task)
}

/// A path as a shell takes it for one word, and the command for no setting.
pub fn quoted(path: &Path) -> String {
    let text = path.to_string_lossy();
    let text = match text.starts_with('-') {
        true => format!("./{text}"),
        false => text.into_owned(),
    };
    let plain = |letter: char| letter.is_alphanumeric() || "/._-+,:@%".contains(letter);
    match !text.is_empty() && text.chars().all(plain) {
        true => text,
        false => format!("'{}'", text.replace('\'', "'\\''")),
    }
}

#[cfg(test)]
mod tests {
    use super::quoted;
    use std::path::Path;

    #[test]
    fn paths_are_one_word() {
        for (path, word) in [
            ("cellar", "cellar"),
            ("/srv/c-1/b.2", "/srv/c-1/b.2"),
            ("my cellar", "'my cellar'"),
            ("it's", "'it'\\''s'"),
            ("--json", "./--json"),
            ("$HOME", "'$HOME'"),
            ("", "''"),
        ] {
            assert_eq!(quoted(Path::new(path)), word);
        }
    }
}
