//! Faults of one place: a bad sector, no handles left, a work name that is another file's, modes.

use super::scenes::{poked, racks, small};
use super::{data, done, run};
use crate::disk::simulated::Simulated;

/// A cabinet (4, 3, 8, 3) of 1,000 stripes in four segments.
fn segments() -> Simulated {
    let disk = Simulated::with(&[("data", &data(128_000))]);
    done(&disk, "store 4 3 8 3 --volume 7 data c");
    disk.copy()
}

/// A sector that cannot be read is one segment of one tray, and no later one.
#[test]
fn a_bad_sector_is_no_lost_tray() {
    let disk = segments();
    // One in each of six trays, in segments of which each has no more than two.
    for (tray, segment) in [(0, 0), (1, 0), (4, 1), (5, 1), (8, 2), (11, 2)] {
        let at = 512 + segment * (24 + 4096 + 8) + 1000;
        disk.spoil(&format!("c/tray-{tray:02}.img"), at..at + 512);
    }
    done(&disk, "get c back");
    assert_eq!(disk.get("back"), Some(data(128_000)));
    let out = run(&disk, "margin c").out;
    let words = "tray  5 is not used in stripes 256-511: unreadable";
    assert!(out.contains(words), "{out}");
    assert!(out.contains("margin 2"), "{out}");
    let ended = run(&disk, "recover c");
    assert_eq!(ended.status, 0, "{ended:?}");
    assert_eq!(run(&disk, "test c").status, 0);
}

/// Nothing goes out by a pipe before all data are known to be right.
#[test]
fn a_get_to_a_pipe_is_right_or_nothing() {
    let before = racks();
    let right = before.get("data");
    for call in 0..400 {
        let disk = before.copy();
        disk.fail_at(call, 5);
        let ended = run(&disk, "get c -");
        let out = disk.get("output");
        match super::is_done(ended.status) {
            true => assert_eq!(out, right, "error at {call}: {ended:?}"),
            false => assert!(out.is_none() || ended.status == 74, "{call}: {ended:?}"),
        }
    }
    let disk = before.copy();
    for tray in 0..7 {
        let name = format!("c/tray-{tray:02}.img");
        disk.put(
            &name,
            &poked(disk.copy(), &name, 560)
                .get(&name)
                .expect("it is there"),
        );
    }
    let ended = run(&disk, "get c -");
    assert!(
        super::is_done(ended.status) || disk.get("output").is_none(),
        "{ended:?}"
    );
}

/// No more handles are no damage: no tray is taken for lost, and none is written.
#[test]
fn local_trouble_is_no_damage() {
    let before = small();
    let whole = before.copy();
    run(&whole, "recover c");
    for call in 1..=whole.calls() {
        for error in [24, 23, 12, 13] {
            let disk = before.copy();
            disk.fail_at(call, error);
            let ended = run(&disk, "recover c");
            assert_eq!(disk.files(), before.files(), "{error} at {call}: {ended:?}");
        }
    }
    // The whole command fails, and says why.
    let disk = before.copy();
    disk.fail_at(5, 24);
    let ended = run(&disk, "get c back");
    assert_eq!(ended.status, 74, "{ended:?}");
    assert!(ended.message.contains("Too many open files"), "{ended:?}");
}

/// What stands under a work name is never written, whatever other name it has.
#[test]
fn a_work_name_that_is_another_files() {
    for line in [
        "repair c --lost 1 --helpers 0,2",
        "recover c",
        "store 3 1 1 2 --volume 7 --replace other c",
        "get c back",
    ] {
        let disk = small();
        let kept = disk.get("c/tray-02.img").expect("it is there");
        if !line.starts_with("get") {
            disk.take("c/tray-01.img");
        }
        disk.put("kept", &kept);
        for work in [
            "c/.tray-01.img.repair",
            "c/.tray-01.img.recover",
            "c/.tray-01.img.store",
            "c/.cabinet.txt.store",
            ".back.get",
        ] {
            disk.link("kept", work);
        }
        done(&disk, line);
        assert_eq!(disk.get("kept"), Some(kept), "{line}");
    }
}

/// A repair that goes on does not write into a file with another name.
#[test]
fn a_repair_does_not_go_on_in_another_file() {
    let disk = small();
    let tray = disk.get("c/tray-01.img");
    disk.take("c/tray-01.img");
    done(&disk, "repair c --lost 1 --helpers 0,2 --budget 9");
    disk.link("c/.tray-01.img.repair", "kept");
    let kept = disk.get("kept");
    let out = done(&disk, "repair c --lost 1 --helpers 0,2");
    assert!(out.contains("begins anew"), "{out}");
    assert_eq!(disk.get("kept"), kept);
    assert_eq!(disk.get("c/tray-01.img"), tray);
}

/// New files are no more open than those that they replace, or than those beside them.
#[test]
fn modes_are_kept() {
    for line in [
        "repair c --lost 1 --helpers 0,2",
        "recover c --erase 1",
        "store 3 1 1 2 --volume 7 --replace other c",
    ] {
        for is_there in [true, false] {
            let disk = small();
            for tray in 0..3 {
                disk.set_mode(&format!("c/tray-{tray:02}.img"), 0o600);
            }
            if !is_there {
                disk.take("c/tray-01.img");
            }
            done(&disk, line);
            assert_eq!(disk.mode("c/tray-01.img"), 0o600, "{line}, {is_there}");
        }
    }
}

/// Errors of syncing a folder are errors.
#[test]
fn a_folder_that_cannot_be_synced() {
    let before = small();
    before.take("c/tray-01.img");
    let whole = before.copy();
    done(&whole, "recover c");
    // The last call is the sync of the folder.
    let disk = before.copy();
    disk.fail_at(whole.calls(), 5);
    let ended = run(&disk, "recover c");
    assert_eq!(ended.status, 74, "{ended:?}");
}

/// Every bit of a repair's work file and checkpoint: never published, whatever was changed.
#[test]
fn a_repair_looks_at_its_work_files_again() {
    let before = Simulated::with(&[("data", &data(12_000))]);
    done(&before, "store 3 1 1 2 --volume 7 data c");
    let tray = before.get("c/tray-01.img");
    before.take("c/tray-01.img");
    let line = "repair c --lost 1 --helpers 0,2";
    done(&before, &format!("{line} --budget 4500"));
    let before = before.copy();
    for name in ["c/.tray-01.img.repair", "c/tray-01.spare"] {
        let bytes = before.get(name).expect("it is there");
        for at in (0..bytes.len()).step_by(bytes.len() / 160) {
            let disk = before.copy();
            let disk = poked(disk, name, at);
            let ended = run(&disk, line);
            match ended.status {
                0 => assert_eq!(disk.get("c/tray-01.img"), tray, "{name}, byte {at}"),
                _ => assert_eq!(disk.get("c/tray-01.img"), None, "{name}, byte {at}"),
            }
        }
    }
}

/// One bit of any file of a cabinet: what is given is right, and `recover` brings the file back.
#[test]
fn any_bit_of_any_file() {
    let before = racks();
    let files = before.files();
    let wanted = before.get("data");
    for name in [
        "c/cabinet.txt",
        "c/tray-00.img",
        "c/tray-07.img",
        "c/tray-11.img",
    ] {
        for at in (0..files[name].len()).step_by(3) {
            let disk = before.copy();
            let disk = poked(disk, name, at);
            let ended = run(&disk, "get c back");
            assert!(super::is_done(ended.status), "{name}, byte {at}: {ended:?}");
            assert_eq!(disk.get("back"), wanted, "{name}, byte {at}");
            if name != "c/cabinet.txt" {
                assert_eq!(run(&disk, "test c").status != 0, true, "{name}, byte {at}");
                let ended = run(&disk, "recover c");
                assert!(super::is_done(ended.status), "{name}, byte {at}: {ended:?}");
                assert_eq!(
                    disk.get(name).as_ref(),
                    Some(&files[name]),
                    "{name}, byte {at}"
                );
            }
        }
    }
}
