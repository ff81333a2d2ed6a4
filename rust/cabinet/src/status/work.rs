//! Work that is open in a cabinet's folder: what commands that were cut, or are at work, have left.

use crate::commands::recover;
use crate::failure::Failure;
use crate::files::cabinet::Cabinet;
use crate::files::census::STORE;
use crate::files::checkpoint::Checkpoint;
use crate::files::tasks::is_of_rebuild;
use crate::repair::Repair;
use crate::scrub;
use crate::terminal::json::Json;
use crate::terminal::report;
use crate::terminal::words::{count, trays};
use gesarumbo::Tray;
use std::path::Path;

/// What was begun.
#[derive(Clone, Copy, PartialEq, Eq, Debug)]
pub enum Task {
    Store,
    Repair,
    Recovery,
    Scrub,
}

impl Task {
    pub fn word(self) -> &'static str {
        match self {
            Task::Store => "store",
            Task::Repair => "repair",
            Task::Recovery => "recovery",
            Task::Scrub => "scrub",
        }
    }
}

/// A task that is not at its end.
#[derive(Debug)]
pub struct Work {
    pub task: Task,
    /// The trays that it writes, where they are known.
    pub trays: Vec<Tray>,
    /// The stripes that are done; none where there is no checkpoint that can be gone on with.
    pub done: Option<u32>,
    /// The file by which it is known.
    pub file: String,
}

impl Work {
    /// In words.
    pub fn words(&self, cabinet: &Cabinet) -> String {
        let of = match &self.trays[..] {
            [] => String::new(),
            known => format!(" of {}", trays(known)),
        };
        let far = match (self.task, self.done) {
            (Task::Store, _) => "its line, run again, finishes it".to_string(),
            (_, Some(done)) => {
                let stripes = count(cabinet.description.stripes as usize, "stripe");
                format!("{done} of {stripes} done")
            }
            (_, None) => "begins anew".to_string(),
        };
        format!("a {}{of}: {far} ({})", self.task.word(), self.file)
    }

    pub fn json(&self) -> Json {
        Json::object([
            ("task", self.task.word().into()),
            ("trays", report::trays(&self.trays)),
            ("stripes_done", self.done.into()),
            ("file", self.file.clone().into()),
        ])
    }
}

/// All open work of a folder, by names.
pub fn of(cabinet: &Cabinet) -> Result<Vec<Work>, Failure> {
    let folder = cabinet.folder();
    let names = cabinet.disk.list(folder).map_err(Failure::file(folder))?;
    let mut names: Vec<String> = names
        .into_iter()
        .filter_map(|name| name.into_string().ok())
        .collect();
    names.sort();
    let mut works: Vec<Work> = Vec::new();
    for name in names {
        let Some(work) = known(cabinet, name)? else {
            continue;
        };
        let is_same = |other: &&Work| other.task == work.task && covers(other, &work);
        match works.iter_mut().find(|other| is_same(&&**other)) {
            // A checkpoint says more than a work file.
            Some(other) if other.done.is_none() && work.done.is_some() => *other = work,
            Some(_) => {}
            None => works.push(work),
        }
    }
    Ok(works)
}

/// Whether two are files of one task: a store and a recovery are one each.
fn covers(one: &Work, other: &Work) -> bool {
    match one.task {
        Task::Repair => {
            let within =
                |of: &Work, all: &Work| of.trays.iter().all(|tray| all.trays.contains(tray));
            within(one, other) || within(other, one)
        }
        _ => true,
    }
}

/// What a file of this name is of.
fn known(cabinet: &Cabinet, name: String) -> Result<Option<Work>, Failure> {
    let work = |task, trays, done| {
        Some(Work {
            task,
            trays,
            done,
            file: name.clone(),
        })
    };
    if name.starts_with('.') && name.ends_with(&format!(".{STORE}")) {
        return Ok(work(Task::Store, Vec::new(), None));
    }
    if name == scrub::NAME {
        let found = checkpoint(cabinet, &name)?
            .filter(|found| found.task == format!("scrub of {}", cabinet.description.key()));
        return Ok(work(
            Task::Scrub,
            Vec::new(),
            found.map(|found| found.stripe),
        ));
    }
    if !is_of_rebuild(&name) || name.ends_with(".new") {
        return Ok(None);
    }
    if name == recover::NAME {
        let found = checkpoint(cabinet, &name)?;
        let ends = format!(" of {}", cabinet.description.key());
        let found = found.filter(|found| found.task.ends_with(&ends));
        let named = found.as_ref().map(|found| numbers(&found.task, &ends));
        return Ok(work(
            Task::Recovery,
            named.unwrap_or_default(),
            found.map(|found| found.stripe),
        ));
    }
    if let Some(spare) = name.strip_suffix(".spare") {
        let lost = numbers(spare, "");
        let found = checkpoint(cabinet, &name)?;
        let found = found.filter(|found| Repair::parse(&found.task, cabinet, &lost).is_some());
        return Ok(work(Task::Repair, lost, found.map(|found| found.stripe)));
    }
    let task = match name.ends_with("repair") {
        true => Task::Repair,
        false => Task::Recovery,
    };
    Ok(work(task, numbers(&name, ""), None))
}

/// The checkpoint in a file; none where it is damaged.
fn checkpoint(cabinet: &Cabinet, name: &str) -> Result<Option<Checkpoint>, Failure> {
    let damaged = |_: &Path| Failure::Contents(String::new());
    match Checkpoint::read(cabinet.disk, &cabinet.file(name), |_| true, damaged) {
        Err(Failure::Contents(_)) => Ok(None),
        other => other,
    }
}

/// The trays that are named up to an end.
fn numbers(words: &str, end: &str) -> Vec<Tray> {
    let words = words.strip_suffix(end).unwrap_or(words);
    let words = words.split(|letter: char| !letter.is_ascii_digit());
    words
        .filter_map(|word| word.parse().ok().map(Tray::new))
        .collect()
}
