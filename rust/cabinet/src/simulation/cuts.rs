//! Every line cut after every call, with what POSIX may leave of the changes that were not synced.

use super::run;
use super::scenes::{names, reading, writing, Scene};
use crate::disk::simulated::Kept;
use std::collections::BTreeSet;

/// Of so many changes that are not synced all sets are tried.
const ALL: usize = 7;

/// What may be left of so many changes: any of them, or where there are many, some of all kinds.
fn kept(changes: usize, seed: u64) -> Vec<Kept> {
    if changes <= ALL {
        return (0..1 << changes).map(Kept::Set).collect();
    }
    let mut kept = vec![Kept::None, Kept::All];
    kept.extend((1..changes).map(Kept::First));
    kept.extend((0..changes).map(Kept::Only));
    kept.extend((0..changes).map(Kept::But));
    kept.extend((0..16).map(|more| Kept::Some(seed * 16 + more)));
    kept
}

/// All pairs of what may be left of names and of contents, or where these are too many, each of the
/// one with some of the other.
fn pairs(namings: usize, changes: usize, call: u64) -> Vec<(Kept, Kept)> {
    let (names, mut contents) = (kept(namings, call), kept(changes, call + 1));
    contents.push(Kept::Halves);
    let some = [Kept::None, Kept::All, Kept::Some(call)];
    if names.len() * contents.len() <= 1 << (ALL + 5) {
        let with_all = |name: Kept| contents.iter().map(move |change| (name, *change));
        return names.into_iter().flat_map(with_all).collect();
    }
    let some_contents = [Kept::None, Kept::All, Kept::Some(call), Kept::Halves];
    let names = names.into_iter();
    let one = names.flat_map(|name| some_contents.map(|change| (name, change)));
    let other = contents
        .iter()
        .flat_map(|change| some.map(|name| (name, *change)));
    one.chain(other).collect()
}

/// Cuts a line after every call, and gives how many different states were tried.
fn cut(scene: &Scene) -> usize {
    let whole = scene.before.copy();
    let ended = run(&whole, scene.line);
    assert_eq!(ended.status, scene.status, "{}: {ended:?}", scene.name);
    let (finished, calls) = (names(&whole), whole.calls());
    let (mut seen, mut most) = (BTreeSet::new(), (0, 0));
    for call in 0..=calls {
        let disk = scene.before.copy();
        disk.cut_after(call);
        run(&disk, scene.line);
        let (namings, changes) = disk.unsynced();
        most = (most.0.max(namings), most.1.max(changes));
        for (kept_names, kept_contents) in pairs(namings, changes, call as u64) {
            let after = disk.after_cut(kept_names, kept_contents);
            if seen.insert(after.everything()) {
                let trial = format!("cut after call {call}, {kept_names:?}, {kept_contents:?}");
                scene.judge(&after, &finished, &trial);
            }
        }
    }
    let (states, (namings, changes)) = (seen.len(), most);
    println!(
        "{}: {calls} calls, {states} states, at most {namings} names and {changes} writes not synced",
        scene.name
    );
    states
}

#[test]
fn lines_that_write_trays() {
    let states: usize = writing().iter().map(cut).sum();
    println!("{states} states");
    assert!(states > 400, "{states}");
}

#[test]
fn lines_that_write_other_files() {
    let states: usize = reading().iter().map(cut).sum();
    println!("{states} states");
    assert!(states > 40, "{states}");
}
