//! Everything that is broken in one line, and trays that were exchanged.

use crate::bench::{assert_readable, data, Bench, LABEL, SYMBOLS};
use crate::json::{report, Value};
use std::fs::{self, Permissions};
use std::os::unix::fs::PermissionsExt;

/// A cabinet of this layout with so many bytes, in the folder `c`.
fn cabinet(layout: &str, size: usize) -> Bench {
    let bench = Bench::new();
    bench.write("data", &data(size));
    bench.done(&format!("store {layout} --volume 7 data c"));
    bench
}

fn image(tray: usize) -> String {
    format!("c/tray-{tray:02}.img")
}

/// The trays' files, which must be just these afterwards.
fn images(bench: &Bench) -> Vec<(String, Vec<u8>)> {
    let mut files = bench.snapshot("c");
    files.retain(|(name, _)| name.ends_with(".img"));
    files
}

#[test]
fn a_lost_tray_comes_back_by_shares() {
    let bench = cabinet("10 3 24 9", 100_000);
    let whole = images(&bench);
    bench.remove(&image(13));
    let out = bench.done("fix c");
    assert_readable(&out);
    for words in [
        "  tray 13 is absent\n",
        "By shares: tray 13 is repaired from racks 0, 1, 2, 3, 5, 6, 7, 8, 9; 4,608",
        "tray 13 is whole; all trays together are sound",
        "sound: each of 5,120 layers meets all 6 checks",
    ] {
        assert!(out.contains(words), "{words}: {out}");
    }
    assert_eq!(images(&bench), whole);
    let out = bench.done("fix c");
    assert_eq!(
        out,
        "Cabinet (10, 3, 24, 9), volumes 7 to 8: 5 stripes, 100,000 bytes\n  \
         sound: each of 5,120 layers meets all 6 checks\n"
    );
}

/// By which way, by layout and lost trays.
#[test]
fn the_way_of_the_least_traffic() {
    for (layout, lost, ways) in [
        ("10 3 24 9", &[12, 13, 14][..], &["shares"][..]),
        ("10 3 24 9", &[12, 15], &["recovery"]),
        ("5 3 6 3", &[1, 13], &["shares", "shares"]),
        ("5 3 6 3", &[1, 4, 13], &["recovery"]),
        ("4 3 8 3", &[0, 1], &["recovery"]),
        ("3 1 1 1", &[0], &["recovery"]),
        ("6 3 5 4 1", &[4], &["shares"]),
        ("6 3 5 4 1", &[4, 5], &["recovery"]),
    ] {
        let bench = cabinet(layout, 3_000);
        let whole = images(&bench);
        lost.iter().for_each(|tray| bench.remove(&image(*tray)));
        let value = report(&bench, 0, "fix c");
        let steps = value.at("steps").list().iter();
        let found: Vec<&str> = steps.map(|step| step.at("way").text()).collect();
        assert_eq!(found, ways, "{layout}: {lost:?}");
        assert_eq!(images(&bench), whole, "{layout}: {lost:?}");
    }
}

/// One bit in each of several trays, a reset tray, one of another place, a label: all in one line.
#[test]
fn everything_at_once() {
    let bench = cabinet("4 3 6 3", 3_000);
    let whole = images(&bench);
    bench.remove(&image(0));
    bench.flip(&image(4), SYMBOLS + 3);
    bench.forge(&image(11), SYMBOLS + 40);
    bench.poke(&image(7), 100, b'x');
    bench.poke(&image(9), LABEL + 3, 2);
    let out = bench.ends(17, "fix c");
    assert_readable(&out);
    for words in [
        "tray 0 is absent",
        "tray 4 is bad: its checksum is wrong",
        "tray 7 is bad: its label cannot be read",
        "tray 9 is demonstration: refused (10)",
        "tray 11 holds wrong symbols",
        "meets all 6 checks",
    ] {
        assert!(out.contains(words), "{words}: {out}");
    }
    assert_eq!(images(&bench), whole);
    bench.done("test c");
}

/// The copy for people is put right too.
#[test]
fn the_description_comes_back() {
    let bench = cabinet("4 3 8 3", 3_000);
    let whole = bench.snapshot("c");
    for lose in [true, false] {
        match lose {
            true => bench.remove("c/cabinet.txt"),
            false => bench.poke("c/cabinet.txt", 30, b'9'),
        }
        let out = bench.done("status c");
        assert!(
            out.contains("cabinet.txt is not as the labels say"),
            "{out}"
        );
        assert!(out.contains("next        cabinet fix c\n"), "{out}");
        let out = bench.ends(17, "fix c");
        let words = "cabinet.txt was not as the labels say, and is written anew";
        assert!(out.contains(words), "{out}");
        assert_eq!(bench.snapshot("c"), whole);
    }
}

/// What no checksum tells is found by the test after the shares, and put right.
#[test]
fn a_tray_that_was_written_wrong() {
    let bench = cabinet("4 3 6 3", 90);
    let whole = images(&bench);
    bench.forge(&image(11), SYMBOLS + 4);
    let out = bench.ends(17, "fix c");
    assert!(out.contains("tray 11 holds wrong symbols"), "{out}");
    assert_eq!(images(&bench), whole);
    // Beside a lost one.
    bench.forge(&image(11), SYMBOLS + 4);
    bench.remove(&image(0));
    let value = report(&bench, 17, "fix c");
    assert_eq!(value.at("steps").list().len(), 2);
    assert_eq!(images(&bench), whole);
}

#[test]
fn it_goes_on_where_it_was_cut() {
    let bench = cabinet("4 3 8 3", 76_800);
    let whole = images(&bench);
    bench.remove(&image(4));
    bench.done("repair c --lost 4 --helpers 0,2,3 --budget 2000");
    let out = bench.done("fix c");
    assert!(out.contains("goes on with stripe 250"), "{out}");
    assert_eq!(images(&bench), whole);
    assert!(!bench.exists("c/tray-04.spare"));
    // With a checkpoint that says something else it begins anew.
    bench.remove(&image(4));
    bench.done("repair c --lost 4 --budget 2000");
    bench.poke("c/tray-04.spare", 90, b'x');
    let out = bench.done("fix c");
    assert!(!out.contains("goes on"), "{out}");
    assert_eq!(images(&bench), whole);
    // What is left of a repair that nothing needs is cleared away.
    bench.remove(&image(4));
    bench.done("repair c --lost 4 --budget 2000");
    bench.done("recover c");
    let out = bench.done("fix c");
    let words = "cleared away: .tray-04.img.repair, tray-04.spare";
    assert!(out.contains(words), "{out}");
    assert_eq!(bench.snapshot("c").len(), 13, "trays and cabinet.txt");
}

#[test]
fn what_it_cannot_do() {
    let bench = cabinet("4 3 8 3", 3_000);
    (0..5).for_each(|tray| bench.remove(&image(tray)));
    let before = bench.snapshot(".");
    let message = bench.fails(5, "fix c");
    let words = "recovery of 5 trays: any 4 may be lost: refused (5)";
    assert!(message.contains(words), "{message}");
    assert_eq!(bench.snapshot("."), before);
    let value = report(&bench, 5, "fix c");
    assert_eq!(value.at("broken").numbers(), [0.0, 1.0, 2.0, 3.0, 4.0]);
    assert_eq!(value.at("steps").list()[0].at("status").number(), 5.0);
    bench.fails(74, "fix nowhere");
}

/// A tray that may not be read is not taken for damage.
#[test]
fn a_closed_tray_stays() {
    let bench = cabinet("4 3 8 3", 3_000);
    fs::remove_file(bench.path(&image(4))).expect("it can be removed");
    fs::create_dir(bench.path(&image(4))).expect("a folder can be made");
    let message = bench.fails(74, "fix c");
    assert!(message.contains("not taken for damage"), "{message}");
    let value = report(&bench, 0, "status c");
    assert_eq!(value.at("trays").list()[4].at("state").text(), "closed");
}

#[test]
fn an_exchanged_tray() {
    let bench = cabinet("10 3 24 9", 100_000);
    let whole = images(&bench);
    // A new one, a reset one, and one of the same cabinet as it was.
    bench.write(&image(13), b"");
    bench.done("replace c 13");
    assert_eq!(images(&bench), whole);
    bench.forge(&image(13), SYMBOLS + 9);
    let out = bench.done("replace c 13");
    assert!(out.contains("By shares: tray 13 is repaired"), "{out}");
    assert_eq!(images(&bench), whole);
    bench.done("replace c 14,12");
    assert_eq!(images(&bench), whole);
    // Trays of two racks are recovered.
    let value = report(&bench, 0, "replace c 2,13");
    assert_eq!(value.at("steps").list()[0].at("way").text(), "recovery");
    assert_eq!(images(&bench), whole);
    let message = bench.refused(3, "replace c 30");
    assert!(
        message.contains("no tray 30: trays are 0 to 29"),
        "{message}"
    );
}

/// Others stay as they are where shares do, and are named.
#[test]
fn an_exchanged_tray_beside_others() {
    let bench = cabinet("5 3 6 3", 3_000);
    let whole = images(&bench);
    bench.remove(&image(1));
    bench.remove(&image(13));
    let out = bench.ends(16, "replace c 13");
    assert!(out.contains("not tested: tray 1"), "{out}");
    assert!(!bench.exists(&image(1)));
    // One that no checksum tells.
    bench.forge(&image(5), SYMBOLS + 1);
    let message = bench.fails(65, "replace c 13");
    assert!(message.contains("bad: "), "{message}");
    assert!(!bench.exists(&image(1)));
    bench.ends(17, "fix c");
    assert_eq!(images(&bench), whole);
}

/// A broken tray of the same rack comes back with the one that is named.
#[test]
fn an_exchanged_tray_beside_one_of_its_rack() {
    let bench = cabinet("10 3 24 9", 3_000);
    let whole = images(&bench);
    bench.remove(&image(12));
    let out = bench.done("replace c 13");
    let words = "By a recovery: tray 12, of the same rack, is broken too.";
    assert!(out.contains(words), "{out}");
    assert_eq!(images(&bench), whole);
}

/// A tray is not written over where it may hold the only right symbols, unless a person insists.
#[test]
fn the_only_right_symbols() {
    let bench = Bench::with_first_format();
    for tray in [0, 1, 2] {
        bench.remove(&format!("first/tray-{tray:02}.img"));
    }
    bench.fails(65, "replace first 5");
    bench.ends(16, "replace first 5 --insist");
    bench.done("test first");
}

/// A repair finds its helpers by itself, and says where there are not enough.
#[test]
fn helpers_need_not_be_named() {
    let bench = cabinet("5 3 6 3", 3_000);
    let whole = images(&bench);
    bench.remove(&image(4));
    bench.flip(&image(0), SYMBOLS + 1);
    let value = report(&bench, 17, "repair c --lost 4");
    assert_eq!(value.at("helpers").numbers(), [2.0, 3.0, 4.0]);
    bench.ends(17, "fix c");
    assert_eq!(images(&bench), whole);
    bench.remove(&image(4));
    bench.remove(&image(0));
    bench.remove(&image(14));
    let message = bench.refused(5, "repair c --lost 4");
    let words = "repair of tray 4: 3 helpers needed, of the other racks 2 are sound: use cabinet";
    assert!(message.contains(words), "{message}");
    bench.done("fix c");
    // The helpers of a repair that was begun are kept.
    bench.remove(&image(4));
    bench.done("repair c --lost 4 --helpers 0,2,4 --budget 9");
    let value = report(&bench, 0, "repair c --lost 4");
    assert_eq!(value.at("helpers").numbers(), [0.0, 2.0, 4.0]);
    assert_eq!(value.at("whole"), &Value::Flag(true));
    assert_eq!(images(&bench), whole);
}

/// Refusals say what the command knows.
#[test]
fn refusals_say_what_is_known() {
    let bench = cabinet("10 3 24 9", 3_000);
    for (number, line, words) in [
        (
            5,
            "repair c --lost 4 --helpers 0,2,3",
            "9 helpers needed, 3 given",
        ),
        (
            3,
            "repair c --lost 4,13",
            "trays 4 and 13 stand in different racks: use cabinet recover",
        ),
        (3, "repair c --lost 30", "no tray 30: trays are 0 to 29"),
        (
            3,
            "repair c --lost 4 --helpers 0,2,3,4,5,6,7,8,10",
            "no rack 10: racks are 0 to 9",
        ),
        (4, "repair c --lost 5,4", "in rising order, each once"),
        (
            6,
            "repair c --lost 4 --helpers 1,2,3,4,5,6,7,8,9",
            "rack 1 has the lost trays",
        ),
        (1, "choose --trays 61 --survive 3", "at most 60 trays"),
        (
            1,
            "choose --trays 21 --survive 3 --rack 7",
            "a rack has 1, 2, 3, 4, 5, 8, 15, 16 or 17",
        ),
        (
            1,
            "choose --trays 22 --survive 3 --rack 4",
            "22 trays are no whole racks of 4",
        ),
    ] {
        let message = bench.refused(number, line);
        assert!(message.contains(words), "{line}: {message}");
    }
    let bench = cabinet("4 3 8 3", 3_000);
    let message = bench.refused(12, "repair c --lost 0,1");
    let words = "2 trays lost: of one rack 1 to 1 are repaired at once; else use cabinet recover";
    assert!(message.contains(words), "{message}");
}

/// A folder that may only be read is left as it is.
#[test]
fn a_folder_that_may_only_be_read() {
    let bench = cabinet("4 3 8 3", 3_000);
    fs::set_permissions(bench.path("c"), Permissions::from_mode(0o555)).expect("modes can be set");
    let out = bench.done("fix c");
    assert!(out.contains("meets all 4 checks"), "{out}");
    fs::set_permissions(bench.path("c"), Permissions::from_mode(0o755)).expect("modes can be set");
}
