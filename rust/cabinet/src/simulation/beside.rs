//! A store beside every other line, before every one of its calls.

use super::scenes::{reading, writing, Scene};
use super::{data, is_done, run};
use crate::disk::simulated::Simulated;

const STORE: &str = "store 3 1 1 2 --volume 7 --replace third c";

/// Runs a line with a store of other data before one of its calls. Either is refused for the other,
/// or both are done, one after the other: what `get` gives is one cabinet's data, and no tray is of
/// another generation.
fn with_store(scene: &Scene, call: usize) {
    let disk = scene.before.copy();
    disk.put("third", &data(77)[7..]);
    disk.interrupt_at(call, Box::new(store));
    let ended = run(&disk, scene.line);
    let trial = format!("{}, a store before call {call}: {ended:?}", scene.name);
    if let (Some((name, right)), true) = (&scene.output, is_done(ended.status)) {
        // What the line gives before the store, or after it.
        let again = disk.copy();
        again.take(name);
        run(&again, scene.line);
        let found = disk.get(name);
        let is_right = found.as_ref() == Some(right) || found == again.get(name);
        assert!(is_right, "{trial}: {name} is wrong");
    }
    let found = run(&disk, "get c judged");
    let got = disk.get("judged");
    let stored = disk.get("stored").is_some();
    let third = data(77)[7..].to_vec();
    let known = [Some(&scene.new), scene.old.as_ref(), Some(&third)];
    let is_known = known.contains(&got.as_ref());
    assert!(is_known || got.is_none(), "{trial}: {found:?}");
    if stored && !scene.line.starts_with("store") {
        assert_eq!(got, Some(third), "{trial}: {found:?}");
    }
    let tested = run(&disk, "margin c");
    assert!(
        !tested.out.contains("generation"),
        "{trial}: {}",
        tested.out
    );
}

/// The store, and a mark if it was done.
fn store(disk: &Simulated) {
    if run(disk, STORE).status == 0 {
        disk.put("stored", b"");
    }
}

#[test]
fn a_store_beside_every_line() {
    let mut tried = 0;
    for scene in writing().iter().chain(&reading()) {
        if scene.line.starts_with("card") || scene.line.starts_with("plan") {
            continue;
        }
        let whole = scene.before.copy();
        run(&whole, scene.line);
        for call in 1..=whole.calls() {
            with_store(scene, call);
            tried += 1;
        }
    }
    println!("{tried} stores beside other lines");
}
