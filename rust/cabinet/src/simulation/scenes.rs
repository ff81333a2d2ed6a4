//! What is tried: a disk before, a line, how it ends, and what may be in the cabinet afterwards.

use super::{data, done, run, Ended};
use crate::disk::simulated::Simulated;
use std::collections::BTreeMap;

/// A line and what it is tried on.
pub struct Scene {
    pub name: &'static str,
    pub before: Simulated,
    pub line: &'static str,
    /// How it ends where nothing interferes.
    pub status: u8,
    /// What `get` may give afterwards: the old data, or the new ones. None is said of a folder in
    /// which no cabinet was.
    pub old: Option<Vec<u8>>,
    pub new: Vec<u8>,
    /// A file that it writes, and what it must hold then.
    pub output: Option<(&'static str, Vec<u8>)>,
}

pub const SMALL: &str = "store 3 1 1 2 --volume 7";
const SIZE: usize = 40;

/// A cabinet (3, 1, 1, 2) of five stripes in the folder `c`.
pub fn small() -> Simulated {
    let disk = Simulated::with(&[("data", &data(SIZE)), ("other", &data(SIZE + 3)[3..])]);
    done(&disk, &format!("{SMALL} data c"));
    disk.copy()
}

/// A cabinet (4, 3, 6, 3) of three stripes in the folder `c`.
pub fn racks() -> Simulated {
    let disk = Simulated::with(&[("data", &data(250)), ("other", &data(253)[3..])]);
    done(&disk, "store 4 3 6 3 --volume 7 data c");
    disk.copy()
}

/// The disk without a file.
fn without(disk: Simulated, name: &str) -> Simulated {
    disk.take(name);
    disk.copy()
}

/// The disk with one byte of a file changed.
pub fn poked(disk: Simulated, name: &str, at: usize) -> Simulated {
    let mut bytes = disk.get(name).expect("it is there");
    bytes[at] ^= 0x10;
    disk.put(name, &bytes);
    disk.copy()
}

/// The disk after a line.
fn after(disk: Simulated, line: &str) -> Simulated {
    done(&disk, line);
    disk.copy()
}

fn scene(name: &'static str, before: Simulated, line: &'static str, status: u8) -> Scene {
    let kept = before.get("data").expect("there are data");
    Scene {
        name,
        before,
        line,
        status,
        old: Some(kept.clone()),
        new: kept,
        output: None,
    }
}

/// A file that a line writes on this disk where nothing interferes.
fn written(before: &Simulated, line: &str, name: &str) -> Vec<u8> {
    let disk = before.copy();
    run(&disk, line);
    disk.get(name).expect("it is written")
}

fn with_output(mut scene: Scene, name: &'static str) -> Scene {
    let bytes = written(&scene.before, scene.line, name);
    scene.output = Some((name, bytes));
    scene
}

/// Lines that write a cabinet's trays.
pub fn writing() -> Vec<Scene> {
    let mut scenes = stores();
    scenes.extend(repairs());
    scenes.extend(recoveries());
    scenes.extend(fixes());
    scenes
}

fn lost() -> Simulated {
    without(small(), "c/tray-01.img")
}

fn wrong() -> Simulated {
    poked(small(), "c/tray-02.img", 540)
}

fn stores() -> Vec<Scene> {
    let new_folder = Simulated::with(&[("data", &data(SIZE))]);
    let mut store = scene("a store", new_folder, "store 3 1 1 2 --volume 7 data c", 0);
    store.old = None;
    let replace = "store 3 1 1 2 --volume 7 --replace other c";
    let mut replacing = scene("a store over another", small(), replace, 0);
    replacing.new = data(SIZE + 3)[3..].to_vec();
    let fewer = "store 2 1 1 1 --volume 9 --replace other c";
    let mut shrinking = scene("a store of fewer trays", small(), fewer, 0);
    shrinking.new = data(SIZE + 3)[3..].to_vec();
    let four = Simulated::with(&[("data", &data(SIZE)), ("other", &data(SIZE + 3)[3..])]);
    let four = after(four, "store 4 1 3 3 --volume 7 data c");
    let mut outnumbered = scene(
        "a store of fewer trays than the old ones left",
        four,
        fewer,
        0,
    );
    outnumbered.new = data(SIZE + 3)[3..].to_vec();
    let by_pipe = Simulated::with(&[("data", &data(SIZE)), ("input", &data(SIZE))]);
    let line = "store 3 1 1 2 --volume 7 - c";
    let mut piped = scene("a store from a pipe", by_pipe, line, 0);
    piped.old = None;
    let over = small();
    over.put("input", &data(SIZE + 3)[3..]);
    let line = "store 3 1 1 2 --volume 7 --replace - c";
    let mut over = scene("a store from a pipe over another", over, line, 0);
    over.new = data(SIZE + 3)[3..].to_vec();
    vec![store, replacing, shrinking, outnumbered, piped, over]
}

fn repairs() -> Vec<Scene> {
    let repair = "repair c --lost 1 --helpers 0,2";
    let piece = "repair c --lost 1 --helpers 0,2 --budget 9";
    let two_lost = without(without(racks(), "c/tray-03.img"), "c/tray-05.img");
    let beside_wrong = without(poked(racks(), "c/tray-07.img", 570), "c/tray-01.img");
    vec![
        scene("a repair", lost(), repair, 0),
        scene("a repair that goes on", after(lost(), piece), repair, 0),
        scene("a piece of a repair", lost(), piece, 0),
        scene(
            "a repair of two trays",
            two_lost,
            "repair c --lost 3,5 --helpers 0,2,3",
            0,
        ),
        scene(
            "a repair beside a wrong tray",
            beside_wrong,
            "repair c --lost 1 --helpers 1,2,3",
            17,
        ),
    ]
}

fn recoveries() -> Vec<Scene> {
    vec![
        scene("a recovery", lost(), "recover c", 0),
        scene("a recovery of a wrong tray", wrong(), "recover c", 17),
    ]
}

fn fixes() -> Vec<Scene> {
    let one_lost = || without(racks(), "c/tray-01.img");
    let begun = after(one_lost(), "repair c --lost 1 --budget 9");
    let left = after(one_lost(), "repair c --lost 1 --budget 9");
    let left = after(left, "recover c");
    let two_racks = poked(one_lost(), "c/tray-07.img", 570);
    let rotten = poked(racks(), "c/tray-07.img", 570);
    let text = poked(small(), "c/cabinet.txt", 30);
    vec![
        scene("a fix by a recovery", lost(), "fix c", 0),
        scene("a fix by shares", one_lost(), "fix c", 0),
        scene("a fix that goes on", begun, "fix c", 0),
        scene("a fix that clears away", left, "fix c", 0),
        scene("a fix of two racks", two_racks, "fix c", 17),
        scene("a fix of a wrong tray by shares", rotten, "fix c", 17),
        scene("a fix of nothing", small(), "fix c", 0),
        scene("a fix of the description", text, "fix c", 17),
        scene("a tray replaced", racks(), "replace c 4", 0),
        scene("a tray replaced by a recovery", small(), "replace c 1", 0),
    ]
}

/// Lines that read a cabinet, and write other files.
pub fn reading() -> Vec<Scene> {
    let mut scenes = tests();
    scenes.extend(outputs());
    scenes
}

fn tests() -> Vec<Scene> {
    let scrubbed = after(small(), "scrub c --budget 11");
    vec![
        scene("a test", small(), "test c", 0),
        scene("a test that finds a fault", wrong(), "test c", 65),
        scene("a scrub", small(), "scrub c", 0),
        scene("a piece of a scrub", small(), "scrub c --budget 11", 0),
        scene("a scrub that goes on", scrubbed, "scrub c", 0),
        scene("a margin", small(), "margin c", 0),
        scene("a status", lost(), "status c", 0),
        scene("an inspection", small(), "inspect c/tray-01.img", 0),
    ]
}

fn outputs() -> Vec<Scene> {
    let begun = after(lost(), "repair c --lost 1 --helpers 0,2 --budget 9");
    let get = "get c back";
    let share = "share c --host 1 --helper 2 sent";
    let read = "read c --tray 1 --lost 1 --layers 0..8 --out part";
    let card = "card print 3 1 1 2 --lost 1 --helpers 0,2 --group 1 card";
    let plan = "plan 3 1 1 2 --svg picture";
    let status = "status c --svg picture";
    vec![
        with_output(scene("a get", small(), get, 0), "back"),
        with_output(scene("a get around a fault", wrong(), get, 17), "back"),
        with_output(scene("a get of what is left", lost(), get, 0), "back"),
        with_output(scene("a share", small(), share, 0), "sent"),
        with_output(scene("a read", begun, read, 0), "part"),
        with_output(scene("a card", small(), card, 0), "card"),
        with_output(scene("a picture", small(), plan, 0), "picture"),
        // What it draws is what it could read.
        scene("a drawn status", small(), status, 0),
    ]
}

impl Scene {
    /// What a disk must be like after the line was cut, or met an error: no output is wrong, and the
    /// same line run again finishes.
    pub fn judge(&self, disk: &Simulated, finished: &Names, trial: &str) {
        let trial = format!("{}, {trial}", self.name);
        self.judge_data(disk, &trial, false);
        self.judge_output(disk, &trial);
        let again = run(disk, self.line);
        let is_there = again.status == 74 && again.message.contains("is there already");
        // What was wrong may be right already.
        let is_healed = self.status == 17 && again.status == 0;
        assert!(
            again.status == self.status || is_there || is_healed,
            "{trial}: run again: {again:?}"
        );
        self.judge_data(disk, &trial, true);
        self.judge_output(disk, &trial);
        assert_eq!(&names(disk), finished, "{trial}: the files at the end");
    }

    /// The output is not there, or is right.
    pub fn judge_output(&self, disk: &Simulated, trial: &str) {
        if let Some((name, bytes)) = &self.output {
            let found = disk.get(name);
            let is_right = found.is_none_or(|found| found == *bytes);
            assert!(is_right, "{trial}: {name} is wrong");
        }
    }

    /// What `get` gives is the old data or the new ones, and at the end the new ones.
    fn judge_data(&self, disk: &Simulated, trial: &str, is_end: bool) {
        let disk = disk.copy();
        let ended: Ended = run(&disk, "get c judged");
        let found = disk.get("judged");
        match (found, &self.old) {
            (Some(found), _) if found == self.new => {}
            (Some(found), Some(old)) if found == *old && !is_end => {}
            (None, None) if !is_end && [64, 65, 74].contains(&ended.status) => {}
            (found, _) => {
                let length = found.map(|found| found.len());
                panic!("{trial}: get gives {length:?} bytes: {ended:?}");
            }
        }
    }
}

/// Names of files, with those of checkpoints and work files.
pub type Names = Vec<String>;

pub fn names(disk: &Simulated) -> Names {
    let files: BTreeMap<String, Vec<u8>> = disk.files();
    files.into_keys().collect()
}
