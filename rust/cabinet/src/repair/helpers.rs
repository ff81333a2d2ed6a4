//! Which racks help in a repair where none are named: d racks all of whose trays are live.

use super::{foreign, Repair};
use crate::code::numbers::Numbers;
use crate::failure::Failure;
use crate::files::cabinet::Cabinet;
use crate::files::checkpoint::Checkpoint;
use crate::files::survey::Survey;
use crate::terminal::words::{count, trays};
use gesarumbo::{Rack, Refusal, Tray};
use std::path::Path;

/// The racks all of whose trays are live in every segment.
pub fn sound_racks(cabinet: &Cabinet, survey: &Survey) -> Vec<Rack> {
    let numbers = &cabinet.numbers;
    let is_live = |tray: Tray| survey.first[tray.number() as usize].is_none();
    let racks = (0..numbers.layout.racks).map(Rack::new);
    racks
        .filter(|rack| numbers.trays_of(*rack).all(is_live))
        .collect()
}

/// Helpers for the repair of some trays: those of the checkpoint in a file, if they are still sound,
/// else the first d sound racks.
pub fn helpers(
    cabinet: &Cabinet,
    survey: &Survey,
    lost: &[Tray],
    path: &Path,
) -> Result<Vec<Rack>, Failure> {
    let (numbers, wanted) = (&cabinet.numbers, cabinet.numbers.helpers);
    let host = lost.first().map(|tray| numbers.rack_of(*tray));
    let mut sound = sound_racks(cabinet, survey);
    sound.retain(|rack| Some(*rack) != host);
    let begun = checkpoint(cabinet, path)?;
    let begun = begun.and_then(|found| Repair::parse(&found.task, cabinet, lost));
    let begun = begun.map(|repair| repair.helpers);
    if let Some(begun) = begun.filter(|racks| racks.iter().all(|rack| sound.contains(rack))) {
        return Ok(begun);
    }
    if sound.len() < wanted {
        let about = format!(
            "repair of {}: {} needed, of the other racks {} sound: use cabinet recover",
            trays(lost),
            count(wanted, "helper"),
            match sound.len() {
                1 => "1 is".to_string(),
                some => format!("{some} are"),
            }
        );
        return Err(Failure::refused(about)(Refusal::Count));
    }
    sound.truncate(wanted);
    Ok(sound)
}

/// The checkpoint in a file; none where it is damaged.
pub fn checkpoint(cabinet: &Cabinet, path: &Path) -> Result<Option<Checkpoint>, Failure> {
    match Checkpoint::read(cabinet.disk, path, |_| true, foreign) {
        Err(Failure::Contents(_)) => Ok(None),
        other => other,
    }
}

/// What the command knows of a repair that the library refuses, in words.
pub fn known(numbers: &Numbers, repair: &Repair, refusal: Refusal) -> Option<String> {
    let Repair { lost, helpers } = repair;
    let (trays, racks) = (numbers.trays as u32, numbers.layout.racks);
    let words = match refusal {
        Refusal::Number => {
            let outside = lost.iter().find(|tray| tray.number() >= trays);
            let no_rack = helpers.iter().find(|rack| rack.number() >= racks);
            let apart = lost
                .iter()
                .find(|tray| numbers.rack_of(**tray) != numbers.host_of(lost));
            match (outside, no_rack, apart) {
                (Some(tray), _, _) => format!("no tray {tray}: trays are 0 to {}", trays - 1),
                (_, Some(rack), _) => format!("no rack {rack}: racks are 0 to {}", racks - 1),
                (_, _, Some(tray)) => format!(
                    "trays {} and {tray} stand in different racks: use cabinet recover",
                    lost[0]
                ),
                _ => return None,
            }
        }
        Refusal::Order => "name trays and racks in rising order, each once".to_string(),
        Refusal::Count => {
            let needed = count(numbers.helpers, "helper");
            format!("{needed} needed, {} given", helpers.len())
        }
        Refusal::LostCount => format!(
            "{} lost: of one rack 1 to {} are repaired at once; else use cabinet recover",
            count(lost.len(), "tray"),
            numbers.lost_at_once()
        ),
        Refusal::Host => {
            let host = numbers.host_of(lost);
            format!("rack {host} has the lost trays: helpers are other racks")
        }
        _ => return None,
    };
    Some(words)
}
