//! How broken trays come back for the least traffic: by shares, rack after rack, or by a recovery.

use crate::code::numbers::Numbers;
use crate::files::cabinet::Cabinet;
use crate::files::survey::Survey;
use crate::repair::helpers::sound_racks;
use crate::terminal::words::grouped;
use gesarumbo::{Rack, Tray};
use std::collections::BTreeMap;

/// Which way trays come back.
#[derive(PartialEq, Eq, Debug)]
pub enum Way {
    /// By shares: the trays of a rack at once, one rack after another.
    Shares(Vec<Vec<Tray>>),
    /// From the trays that are left; why shares do not do, in words.
    Recovery(String),
}

/// The way for these trays, with what is sound now.
pub fn choose(cabinet: &Cabinet, survey: &Survey, broken: &[Tray]) -> Way {
    let numbers = &cabinet.numbers;
    let sound = sound_racks(cabinet, survey);
    let hosts = broken.iter().map(|tray| numbers.rack_of(*tray));
    let mut beside = hosts.flat_map(|rack| numbers.trays_of(rack));
    // The other trays of a lost one's rack are used in its repair.
    let is_broken =
        |tray: &Tray| !broken.contains(tray) && survey.first[tray.number() as usize].is_some();
    match beside.find(is_broken) {
        Some(tray) => Way::Recovery(format!("tray {tray}, of the same rack, is broken too")),
        None => of_racks(numbers, &sound, broken),
    }
}

/// The way with these racks sound. A rack whose trays are back is sound too.
fn of_racks(numbers: &Numbers, sound: &[Rack], broken: &[Tray]) -> Way {
    let mut left = BTreeMap::<Rack, Vec<Tray>>::new();
    for tray in broken {
        left.entry(numbers.rack_of(*tray)).or_default().push(*tray);
    }
    let most = numbers.lost_at_once();
    if let Some((rack, lost)) = left.iter().find(|(_, lost)| lost.len() > most) {
        let lost = lost.len();
        return Way::Recovery(format!(
            "{lost} trays of rack {rack} are broken, shares bring back {most} at once"
        ));
    }
    let mut sound = sound.to_vec();
    sound.retain(|rack| !left.contains_key(rack));
    let (helpers, racks) = (sound.len(), left.len());
    if helpers < numbers.helpers && racks > 0 {
        return Way::Recovery(format!(
            "{helpers} other racks are sound, shares need {}",
            numbers.helpers
        ));
    }
    // With d helpers for the first rack there are as many for each later one.
    let (shares, plain) = (broken.len() * numbers.traffic, numbers.data());
    match shares < plain {
        true => Way::Shares(left.into_values().collect()),
        false => Way::Recovery(format!(
            "shares would be {} symbols a stripe, a recovery is {}",
            grouped(shares),
            grouped(plain)
        )),
    }
}

#[cfg(test)]
mod tests {
    use super::{of_racks, Way};
    use crate::code::field::Field;
    use crate::code::numbers::Numbers;
    use gesarumbo::{Layout, Rack, Tray};

    fn way(layout: Layout, bad_racks: &[u32], broken: &[u32]) -> Way {
        let numbers = Numbers::of(layout, Field::Of256).expect("an admissible layout");
        let sound: Vec<Rack> = (0..layout.racks)
            .filter(|rack| !bad_racks.contains(rack))
            .map(Rack::new)
            .collect();
        let broken: Vec<Tray> = broken.iter().copied().map(Tray::new).collect();
        of_racks(&numbers, &sound, &broken)
    }

    fn shares(racks: &[&[u32]]) -> Way {
        let trays = |rack: &&[u32]| rack.iter().copied().map(Tray::new).collect();
        Way::Shares(racks.iter().map(trays).collect())
    }

    #[test]
    fn shares_where_they_are_less() {
        let flagship = Layout::new(10, 3, 24, 9);
        assert_eq!(way(flagship, &[4], &[13]), shares(&[&[13]]));
        assert_eq!(way(flagship, &[4], &[12, 13, 14]), shares(&[&[12, 13, 14]]));
        // All other racks must help, and one of them is broken.
        assert!(matches!(way(flagship, &[4, 5], &[13]), Way::Recovery(_)));
        assert!(matches!(
            way(flagship, &[4, 5], &[13, 15]),
            Way::Recovery(_)
        ));
    }

    #[test]
    fn racks_one_after_another() {
        // d = 3 of four other racks; 5 trays of 27 symbols are 81 a tray by shares of 27.
        let layout = Layout::new(5, 3, 6, 3);
        assert_eq!(way(layout, &[0, 4], &[1, 13]), shares(&[&[1], &[13]]));
        assert!(matches!(
            way(layout, &[0, 1, 4], &[1, 13]),
            Way::Recovery(_)
        ));
    }

    #[test]
    fn a_recovery_where_it_is_less_or_must_be() {
        // u - v is 1.
        let small = Layout::new(4, 3, 8, 3);
        assert!(matches!(way(small, &[0], &[0, 1]), Way::Recovery(_)));
        // Shares are as much as a recovery.
        let plain = Layout::new(3, 1, 1, 1);
        assert!(matches!(way(plain, &[0], &[0]), Way::Recovery(_)));
    }
}
