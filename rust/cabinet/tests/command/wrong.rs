//! Faults that were once passed over: nothing wrong is handed out with status 0, and every fault is
//! named, and healed where code and checksums can.

use crate::bench::{assert_readable, checksum, data, seed, Bench, LABEL, SYMBOLS};
use std::fs;
use std::os::unix::fs::{MetadataExt, PermissionsExt};

const REPAIR: &str = "repair c --lost 1 --helpers 1,2,3";

/// A cabinet (5, 3, 6, 3) of one stripe, in the folder `c`.
fn cabinet() -> Bench {
    let bench = Bench::new();
    bench.write("data", &data(90));
    bench.done("store 5 3 6 3 --volume 7 data c");
    bench
}

/// A cabinet (4, 3, 8, 3) of 600 stripes in three segments, in the folder `c`.
fn segments() -> Bench {
    let bench = Bench::new();
    bench.write("data", &data(76_800));
    bench.done("store 4 3 8 3 --volume 7 data c");
    bench
}

fn image(tray: usize) -> String {
    format!("c/tray-{tray:02}.img")
}

/// Where a symbol of a stripe lies in a tray of (4, 3, 8, 3), of which the last segment has 88
/// stripes.
fn place(stripe: usize, layer: usize) -> usize {
    let (segment, stripe) = (stripe / 256, stripe % 256);
    let many = if segment == 2 { 88 } else { 256 };
    SYMBOLS + segment * (24 + 4096 + 8) + layer * many + stripe
}

/// Point 1: a repair with another tray missing is tested against all trays that are there.
#[test]
fn a_repair_with_another_tray_missing_is_tested() {
    let bench = cabinet();
    let whole = bench.read(&image(1));
    for forged in [false, true] {
        for layer in 0..27 {
            bench.remove(&image(1));
            let kept = (bench.read(&image(11)), bench.read(&image(13)));
            bench.remove(&image(13));
            match forged {
                true => bench.forge(&image(11), SYMBOLS + layer % 8),
                false => bench.flip(&image(11), SYMBOLS + layer % 8),
            }
            let out = bench.ends(17, REPAIR);
            assert_readable(&out);
            assert!(out.contains("tray 11 holds wrong symbols"), "{out}");
            assert!(out.contains("all trays but tray 11 are sound"), "{out}");
            assert_eq!(bench.read(&image(1)), whole, "layer {layer}");
            bench.write(&image(11), &kept.0);
            bench.write(&image(13), &kept.1);
        }
    }
}

/// Point 1, where nothing is left to test against: it says so, with a status of its own.
#[test]
fn a_repair_that_cannot_be_tested_says_so() {
    let bench = Bench::new();
    bench.write("data", &data(128));
    bench.done("store 4 3 8 3 --volume 7 data c");
    let whole = bench.read(&image(1));
    let mut line = REPAIR.to_string();
    for rack in [1, 2, 3] {
        bench.done(&format!("share c --host 0 --helper {rack} share-{rack}"));
        line += &format!(" --share share-{rack}");
    }
    for tray in [1, 4, 7, 10, 11] {
        bench.remove(&image(tray));
    }
    let out = bench.ends(16, &line);
    assert!(out.contains("not tested: no tray to spare"), "{out}");
    assert_eq!(bench.read(&image(1)), whole);
}

/// A repair names every tray that it knows to be wrong, also of racks that it does not use, and says
/// nothing of the lost tray's own file.
#[test]
fn a_repair_names_wrong_trays_that_it_does_not_use() {
    for (wrong, words) in [(11, "tray 11"), (4, "tray 4")] {
        let bench = cabinet();
        let whole = bench.read(&image(1));
        bench.flip(&image(wrong), SYMBOLS + 3);
        bench.flip(&image(1), SYMBOLS + 5);
        let out = bench.ends(17, "repair c --lost 1 --helpers 1,2,4");
        assert!(
            out.contains(&format!("{words} holds wrong symbols")),
            "{out}"
        );
        assert!(
            out.contains(&format!("all trays but {words} are sound")),
            "{out}"
        );
        assert!(!out.contains("tray 1 has"), "{out}");
        assert_eq!(bench.read(&image(1)), whole);
    }
}

/// A repair names the trays whose label cannot be read, as `get` does.
#[test]
fn a_repair_names_labels_that_cannot_be_read() {
    let stale = Bench::with_a_stale_rack();
    for (bench, line) in [
        (cabinet(), "repair c --lost 1 --helpers 1,2,3"),
        (stale, "repair c --lost 1 --helpers 1,2,3,4"),
    ] {
        let whole = bench.read(&image(1));
        bench.flip(&image(1), 300);
        bench.flip(&image(14), 300);
        let out = bench.ends(17, line);
        assert!(out.contains("tray 14's label cannot be read"), "{out}");
        assert!(out.contains("all trays but tray 14 are sound"), "{out}");
        assert!(!out.contains("tray 1's label"), "{out}");
        assert_eq!(bench.read(&image(1)), whole);
    }
}

/// Point 2: "sound" is said only of what was held against checks or checksums.
#[test]
fn sound_is_what_was_held_against_something() {
    let bench = Bench::with_cabinet();
    let before = bench.snapshot("c");
    for tray in [0, 4, 7, 11] {
        bench.remove(&image(tray));
    }
    let out = bench.ends(16, "test c");
    assert!(out.contains("has the checksums that were written"), "{out}");
    bench.done("get c back --replace");
    assert_eq!(bench.read("back"), data(128));
    let out = bench.done("recover c");
    assert!(out.contains("sound, by the checksums"), "{out}");
    assert!(before == bench.snapshot("c"));
    // With a wrong symbol besides there are too few right ones: nothing is given.
    for tray in [0, 4, 7, 11] {
        bench.remove(&image(tray));
    }
    bench.flip(&image(5), SYMBOLS + 3);
    let left = bench.snapshot("c");
    bench.fails(8, "get c out");
    bench.fails(8, "recover c");
    assert!(!bench.exists("out"));
    assert!(left == bench.snapshot("c"));
    // With its checksum forged the data's own checksum tells.
    bench.forge(&image(5), SYMBOLS + 4);
    let message = bench.fails(65, "get c out");
    assert!(
        message.contains("checksum that they were stored with"),
        "{message}"
    );
    assert!(!bench.exists("out"));
}

/// Point 2 in the first format, which has no checksums.
#[test]
fn in_the_first_format_nothing_is_left_to_test_by() {
    let bench = Bench::with_first_format();
    for tray in [0, 4, 7, 11] {
        bench.remove(&format!("first/tray-{tray:02}.img"));
    }
    let out = bench.ends(16, "get first back --replace");
    assert!(out.contains("not tested: no tray to spare"), "{out}");
    assert_eq!(bench.read("back"), data(300));
    let out = bench.ends(16, "test first");
    assert!(out.contains("not tested: no tray to spare"), "{out}");
    let out = bench.ends(16, "read first --tray 1 --layers 0..3");
    assert!(out.contains("not tested: no tray to spare"), "{out}");
    let out = bench.ends(16, "recover first");
    assert!(out.contains("not tested: no tray to spare"), "{out}");
}

/// Point 3: a store over another cabinet, cut after some trays got their names: the new data, whole.
#[test]
fn a_store_over_another_cabinet_that_was_cut() {
    let bench = segments();
    let old: Vec<Vec<u8>> = (0..12).map(|tray| bench.read(&image(tray))).collect();
    let text = bench.read("c/cabinet.txt");
    bench.write("other", &data(70_001)[1..]);
    bench.done("store 4 3 8 3 --volume 7 --replace other c");
    let new: Vec<Vec<u8>> = (0..12).map(|tray| bench.read(&image(tray))).collect();
    let new_text = bench.read("c/cabinet.txt");
    for renamed in 0..=12 {
        bench.write("c/cabinet.txt", &text);
        bench.write("c/.cabinet.txt.store", &new_text);
        for tray in 0..12 {
            let work = format!("c/.tray-{tray:02}.img.store");
            let _ = fs::remove_file(bench.path(&work));
            match tray < renamed {
                true => bench.write(&image(tray), &new[tray]),
                false => {
                    bench.write(&image(tray), &old[tray]);
                    bench.write(&work, &new[tray]);
                }
            }
        }
        bench.done("get c back --replace");
        let expected = match renamed {
            0 => bench.read("data"),
            _ => bench.read("other"),
        };
        assert!(bench.read("back") == expected, "{renamed} have their names");
        bench.done("test c");
        bench.done("store 4 3 8 3 --volume 7 --replace other c");
        bench.done("get c back --replace");
        assert!(bench.read("back") == bench.read("other"), "{renamed}");
        assert_eq!(bench.snapshot("c").len(), 13, "{renamed}");
    }
}

/// Point 4: one lock a cabinet. A tray of an older generation is never used.
#[test]
fn one_lock_a_cabinet() {
    let bench = cabinet();
    let folder = fs::File::open(bench.path("c")).expect("it is there");
    let before = bench.snapshot("c");
    bench.write("other", &data(91)[1..]);
    let readers = [
        "get c back --replace",
        "test c",
        "scrub c",
        "margin c",
        "recover c",
    ];
    let store = "store 5 3 6 3 --volume 7 --replace other c";
    folder.lock().expect("it can be locked");
    for line in readers.iter().chain(&[store, REPAIR]) {
        let message = bench.fails(74, line);
        assert!(message.contains("another command is at work"), "{message}");
    }
    folder.unlock().expect("it was locked");
    folder.lock_shared().expect("it can be shared");
    readers.iter().for_each(|line| drop(bench.done(line)));
    let message = bench.fails(74, store);
    assert!(message.contains("another command is at work"), "{message}");
    assert!(before == bench.snapshot("c"));
    folder.unlock().expect("it was locked");
    let stale = bench.read(&image(4));
    bench.done(store);
    let fresh = bench.snapshot("c");
    bench.write(&image(4), &stale);
    let out = bench.done("get c back --replace");
    let words = "tray  4 is not used: its label is of generation 1, not 2";
    assert!(out.contains(words), "{out}");
    assert!(bench.read("back") == bench.read("other"));
    bench.fails(65, "inspect c/tray-04.img");
    bench.fails(65, "share c --host 0 --helper 1 sent");
    bench.done("repair c --lost 4 --helpers 0,2,3");
    assert!(fresh == bench.snapshot("c"));
}

/// A stale tray whose label is damaged too: its segments are of another generation all the same.
#[test]
fn a_stale_tray_without_a_label() {
    let bench = cabinet();
    let stale = bench.read(&image(1));
    bench.write("other", &data(91)[1..]);
    bench.done("store 5 3 6 3 --volume 7 --replace other c");
    let fresh = bench.snapshot("c");
    bench.write(&image(1), &[&[0; LABEL], &stale[LABEL..]].concat());
    let out = bench.ends(17, "get c back --replace");
    assert!(out.contains("tray 1 holds wrong symbols"), "{out}");
    assert!(bench.read("back") == bench.read("other"));
    bench.ends(17, "recover c");
    assert!(fresh == bench.snapshot("c"));
}

/// Point 5: a resumed repair looks at its work file again.
#[test]
fn a_resumed_repair_looks_at_its_work_file() {
    let bench = segments();
    let before = bench.snapshot("c");
    let line = "repair c --lost 4 --helpers 0,2,3";
    let work = "c/.tray-04.img.repair";
    for flip in 0..40 {
        bench.remove(&image(4));
        bench.done(&format!("{line} --budget 4400"));
        let written = bench.read(work).len();
        bench.flip(work, LABEL + flip * (written - LABEL) / 40);
        let out = bench.done(line);
        assert!(out.contains("is not as it was written"), "{out}");
        assert!(before == bench.snapshot("c"), "byte {flip}");
    }
}

/// Point 6: one bit of cabinet.txt, or its loss, changes nothing.
#[test]
fn the_description_is_a_copy() {
    let bench = cabinet();
    let text = bench.read("c/cabinet.txt");
    for at in 0..text.len() {
        bench.write("c/cabinet.txt", &text);
        bench.flip("c/cabinet.txt", at);
        bench.done("get c back --replace");
        assert_eq!(bench.read("back"), data(90), "byte {at}");
    }
    bench.remove("c/cabinet.txt");
    bench.done("get c back --replace");
    assert_eq!(bench.read("back"), data(90));
    bench.done("test c");
    // Any one tray tells what the cabinet is; with all labels gone the copy does.
    bench.write("c/cabinet.txt", &text);
    (0..15).for_each(|tray| bench.flip(&image(tray), 100));
    bench.ends(17, "get c back --replace");
    assert_eq!(bench.read("back"), data(90));
    let out = bench.ends(17, "recover c");
    assert!(out.contains("label cannot be read"), "{out}");
    bench.remove("c/cabinet.txt");
    bench.done("test c");
}

/// Point 7: what is read says whether it was tested.
#[test]
fn what_is_read_was_tested_or_not() {
    let bench = Bench::with_cabinet();
    let out = bench.done("read c --tray 3 --layers 0..4");
    assert!(out.contains("tested: they fit to the other trays"), "{out}");
    bench.flip(&image(3), SYMBOLS + 2);
    let message = bench.fails(65, "read c --tray 3 --layers 0..4");
    assert!(
        message.contains("do not fit together in layer 2"),
        "{message}"
    );
    bench.done("read c --tray 3 --layers 3..5");
    for tray in [0, 4, 7, 11] {
        bench.remove(&image(tray));
    }
    let out = bench.done("read c --tray 5 --layers 0..4");
    assert!(out.contains("the tray's checksum is right"), "{out}");
    let message = bench.fails(65, "read c --tray 3 --layers 0..4");
    assert!(message.contains("its checksum is wrong"), "{message}");
}

/// Point 8: one flipped bit is found, named and healed.
#[test]
fn one_flipped_bit_is_named_and_healed() {
    let bench = segments();
    let before = bench.snapshot("c");
    bench.flip(&image(6), place(300, 11));
    let out = bench.ends(17, "get c back --replace");
    assert!(
        out.contains("tray 6 holds wrong symbols in stripe 300"),
        "{out}"
    );
    assert!(bench.read("back") == data(76_800));
    for line in ["test c", "scrub c"] {
        let ended = bench.run(line);
        assert_eq!(ended.status, 65, "{line}");
        let words = "tray 6 holds wrong symbols in stripe 300";
        assert!(ended.out.contains(words), "{line}: {}", ended.out);
        let words = "bad: 1 layer of 9,600 broken, layer 11 of stripe 300";
        assert!(ended.err.contains(words), "{line}: {}", ended.err);
    }
    let out = bench.done("margin c");
    assert!(out.contains("wrong checksums: tray 6"), "{out}");
    assert!(out.contains("margin 3 in stripes 256-511"), "{out}");
    bench.ends(17, "recover c");
    assert!(before == bench.snapshot("c"));
}

/// Point 8: one bit in each of five trays, each in another stripe of one segment: more trays than may
/// be lost.
#[test]
fn a_bit_in_each_of_five_trays() {
    let bench = segments();
    let before = bench.snapshot("c");
    for (tray, stripe) in [(0, 10), (3, 20), (4, 30), (8, 40), (11, 50)] {
        bench.flip(&image(tray), place(stripe, 5));
    }
    let out = bench.ends(17, "get c back --replace");
    for words in [
        "tray 0 holds wrong symbols in stripe 10",
        "tray 11 holds wrong symbols in stripe 50",
    ] {
        assert!(out.contains(words), "{out}");
    }
    assert!(bench.read("back") == data(76_800));
    // Two in one stripe besides.
    bench.flip(&image(3), place(30, 9));
    bench.ends(17, "get c back --replace");
    assert!(bench.read("back") == data(76_800));
    // Hunting for the wrong tray makes no loss: nothing is written that the checksums do not bear out.
    let hunted = bench.snapshot("c");
    for erased in ["0,3,4,8", "0,1,2,3", "1,2,5,6"] {
        bench.fails(8, &format!("recover c --erase {erased}"));
        assert!(hunted == bench.snapshot("c"), "{erased}");
    }
    let out = bench.ends(17, "recover c");
    assert!(
        out.contains("tray 3 holds wrong symbols in stripes 20, 30"),
        "{out}"
    );
    assert!(before == bench.snapshot("c"));
}

/// Point 8: where nothing is left to test by, a tray is erased only where a person insists.
#[test]
fn a_tray_is_erased_untested_only_where_a_person_insists() {
    let bench = Bench::with_first_format();
    let before = bench.snapshot("first");
    let message = bench.fails(65, "recover first --erase 0,1,2,3");
    assert!(message.contains("--insist"), "{message}");
    assert!(before == bench.snapshot("first"));
    bench.ends(16, "recover first --erase 0,1,2,3 --insist");
    assert!(before == bench.snapshot("first"));
}

/// Point 8: a wrong tray whose checksum is right, as a writer's error would leave it: the code names
/// it.
#[test]
fn the_code_names_a_tray_that_was_written_wrong() {
    let bench = Bench::with_cabinet();
    let before = bench.snapshot("c");
    for tray in 0..12 {
        bench.forge(&image(tray), SYMBOLS + tray);
        let out = bench.ends(17, "get c back --replace");
        assert!(
            out.contains(&format!("tray {tray} holds wrong symbols")),
            "{out}"
        );
        assert_eq!(bench.read("back"), data(128));
        bench.ends(17, "recover c");
        assert!(before == bench.snapshot("c"), "tray {tray}");
    }
}

/// Point 10: scrub and test run while a tray is missing.
#[test]
fn tests_run_while_a_tray_is_missing() {
    let bench = segments();
    bench.remove(&image(4));
    for line in ["test c", "scrub c"] {
        let out = bench.ends(16, line);
        assert!(out.contains("meets all 3 checks"), "{out}");
        assert!(out.contains("not tested: tray 4"), "{out}");
    }
    bench.flip(&image(6), place(599, 0));
    for line in ["test c", "scrub c"] {
        let ended = bench.run(line);
        assert_eq!(ended.status, 65, "{line}: {}", ended.err);
        let words = "tray 6 holds wrong symbols in stripe 599";
        assert!(ended.out.contains(words), "{line}: {}", ended.out);
    }
}

/// Point 11: modes of files are not widened.
#[test]
fn modes_are_kept() {
    let bench = cabinet();
    let mode = |name: &str| fs::metadata(bench.path(name)).expect("it is there").mode() & 0o777;
    for tray in 0..15 {
        let permissions = fs::Permissions::from_mode(0o600);
        fs::set_permissions(bench.path(&image(tray)), permissions).expect("it is ours");
    }
    bench.done("recover c --erase 3");
    bench.remove(&image(4));
    bench.done("repair c --lost 4 --helpers 0,2,3");
    assert_eq!([mode(&image(3)), mode(&image(4))], [0o600; 2]);
    bench.done("store 5 3 6 3 --volume 7 --replace data c");
    (0..15).for_each(|tray| assert_eq!(mode(&image(tray)), 0o600));
    bench.write("back", b"");
    let permissions = fs::Permissions::from_mode(0o640);
    fs::set_permissions(bench.path("back"), permissions).expect("it is ours");
    bench.done("get c back --replace");
    assert_eq!(mode("back"), 0o640);
}

/// Point 11: no output takes the place of a tray, and none is removed.
#[test]
fn outputs_take_no_trays_place() {
    let bench = cabinet();
    bench.write("alone", &bench.read(&image(3)));
    bench.done("scrub c --budget 3 --record record");
    let before = bench.snapshot(".");
    for place in [
        "c/tray-00.img",
        "c/cabinet.txt",
        "c/.tray-00.img.store",
        "alone",
    ] {
        for line in [
            "share c --host 0 --helper 2",
            "read c --tray 3 --layers 0..1 --out",
            "plan 4 3 8 3 --svg",
            "card print 5 3 6 3 --lost 4 --helpers 0,2,3 --group 0",
            "scrub c --reset --record",
            "scrub c --record record --budget 0 --svg",
            "repair c --lost 4 --helpers 0,2,3 --spare",
            "get c",
        ] {
            let message = bench.fails(64, &format!("{line} {place}"));
            assert!(message.contains("cabinet's own files"), "{line}: {message}");
            assert!(before == bench.snapshot("."), "{line} {place}");
        }
    }
    // Nor that of any file that is no checkpoint.
    for line in [
        "scrub c --reset --record data",
        "repair c --lost 4 --helpers 0,2,3 --spare data",
    ] {
        assert!(bench.fails(65, line).contains("is no checkpoint"), "{line}");
        assert!(before == bench.snapshot("."), "{line}");
    }
}

/// Point 11: a work name that is a hard link of another file: that one stays as it is.
#[test]
fn a_work_name_that_is_a_hard_link() {
    let bench = cabinet();
    let before = bench.snapshot("c");
    for (line, work) in [
        ("repair c --lost 4 --helpers 0,2,3", "c/.tray-04.img.repair"),
        ("recover c --erase 4", "c/.tray-04.img.recover"),
        ("get c back --replace", ".back.get"),
    ] {
        fs::hard_link(bench.path(&image(9)), bench.path(work)).expect("a link can be made");
        bench.done(line);
        assert!(before == bench.snapshot("c"), "{line}");
    }
}

/// Point 11: no more file handles are no damage.
#[test]
fn no_handles_are_no_damage() {
    let bench = cabinet();
    let before = bench.snapshot("c");
    for line in ["recover c", "get c back --replace", "test c", REPAIR] {
        let ended = bench.shell(&format!("ulimit -n 12; exec $cabinet {line}"));
        assert_eq!(ended.status, 74, "{line}: {}{}", ended.out, ended.err);
        assert!(
            ended.err.contains("Too many open files"),
            "{line}: {}",
            ended.err
        );
        assert!(before == bench.snapshot("c"), "{line}");
    }
}

/// 100 MB in (4, 3, 8, 3) take at most 155 MB on all trays together; here a fortieth of that.
#[test]
fn trays_take_little_more_than_their_symbols() {
    let bench = Bench::new();
    bench.write("data", &data(2_500_000));
    bench.done("store 4 3 8 3 --volume 7 data c");
    let all: usize = (0..12).map(|tray| bench.read(&image(tray)).len()).sum();
    assert!(all < 155 * 25_000, "{all} bytes");
    let tray = bench.read(&image(5));
    let end = LABEL + 24 + 4096;
    let sum = u64::from_le_bytes(tray[end..end + 8].try_into().expect("eight bytes"));
    assert_eq!(
        sum,
        checksum(seed(&tray), &tray[LABEL..end]),
        "it is CRC-64 of xz"
    );
}

/// Trays of another cabinet of the same layout, volume and generation, whose labels cannot be read,
/// do not outvote the right one: their segments' checksums are not of this cabinet.
#[test]
fn trays_of_another_cabinet_without_labels_are_not_recovered_from() {
    let bench = Bench::new();
    for (name, first) in [("c", 0), ("d", 9)] {
        bench.write("data", &data(100)[first..first + 90]);
        bench.done(&format!("store 3 1 1 2 --volume 7 data {name}"));
    }
    let right = bench.snapshot("c");
    for tray in 0..2 {
        bench.write(&image(tray), &bench.read(&format!("d/tray-{tray:02}.img")));
        bench.poke(&image(tray), 300, b'X');
    }
    bench.done("get c back --replace");
    assert_eq!(bench.read("back"), data(90));
    // They may be newer.
    let mixed = bench.snapshot("c");
    let message = bench.fails(65, "recover c");
    assert!(message.contains("it may be newer"), "{message}");
    assert!(bench.snapshot("c") == mixed);
    let out = bench.done("recover c --erase 0,1");
    assert!(out.contains("cabinet that nothing here describes"), "{out}");
    assert!(bench.snapshot("c") == right);
    bench.write(&image(0), &bench.read("d/tray-00.img"));
    bench.poke(&image(0), 300, b'X');
    bench.remove(&image(1));
    bench.remove(&image(2));
    let before = bench.snapshot("c");
    let ended = bench.run("recover c");
    assert_eq!(ended.status, 8, "{}{}", ended.out, ended.err);
    assert!(bench.snapshot("c") == before);
}

/// With one check in all, a tray that is worked out from all others fits to them whatever they hold:
/// without checksums it is not tested.
#[test]
fn a_tray_worked_out_from_all_that_are_there_is_not_tested_by_them() {
    let bench = Bench::new();
    bench.write("data", &data(1));
    bench.done("store 2 1 1 1 --volume 7 data c");
    for tray in 0..2 {
        let bytes = bench.read(&image(tray));
        bench.write(&image(tray), &bytes[LABEL..bytes.len() - 8]);
    }
    bench.write(
        "c/cabinet.txt",
        b"layout 2 1 1 1\nvolume 7\nstripes 1\nlength 1\n",
    );
    bench.remove(&image(1));
    let out = bench.ends(16, "repair c --lost 1 --helpers 0");
    assert!(out.contains("not tested: no tray to spare"), "{out}");
}
