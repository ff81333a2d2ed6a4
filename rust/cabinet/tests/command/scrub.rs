//! Testing some layers at a time: the checkpoint between calls, the layers shown, and how a scrub
//! ends.

use crate::bench::{assert_readable, checked, data, Bench, LABEL, SYMBOLS};
use crate::xml::assert_well_formed;

/// Changes a symbol of a tray.
fn damage(bench: &Bench, tray: u32, layer: usize) {
    let name = format!("c/tray-{tray:02}.img");
    bench.flip(&name, SYMBOLS + layer);
}

fn record_file(bench: &Bench) -> String {
    String::from_utf8(bench.read("c/scrub.txt")).expect("the record is text")
}

/// The next layer and the counts of a checkpoint.
fn record(bench: &Bench) -> String {
    let text = record_file(bench);
    let lines: Vec<&str> = text.lines().collect();
    let (place, _) = lines[1].split_once(" over ").expect("a fingerprint");
    format!("{place}, {}", lines[4])
}

/// The rows of the map of layers: a layer's number, then cells.
fn rows(out: &str) -> Vec<&str> {
    let is_row = |line: &&str| {
        let (number, cells) = line.trim().split_once(' ').unwrap_or_default();
        number.parse::<u32>().is_ok() && cells.chars().all(|cell| ".#- ".contains(cell))
    };
    out.lines().filter(is_row).collect()
}

fn picture(bench: &Bench) -> String {
    let picture = String::from_utf8(bench.read("picture.svg")).expect("a picture is text");
    assert_well_formed(&picture);
    picture
}

/// Sound, bad and unseen cells of a picture; each stands in the legend too.
fn cells(picture: &str) -> [usize; 3] {
    ["sound", "bad", "unseen"].map(|class| {
        let drawn = picture.matches(&format!("class=\"{class}\"")).count();
        drawn - 1
    })
}

#[test]
fn a_sound_cabinet_in_pieces() {
    let bench = Bench::with_cabinet();
    let before = bench.snapshot("c");
    for (line, end) in [("--budget 5", 5), ("--budget 0", 5), ("--budget 10", 15)] {
        let out = bench.done(&format!("scrub c {line}"));
        assert_readable(&out);
        assert!(out.contains(&format!("{end} of 16: none bad")), "{out}");
        assert_eq!(
            record(&bench),
            format!("stripe 0 step {end}, bad 0 first 0 0")
        );
    }
    let out = bench.done("scrub c");
    assert!(out.contains("layer 15"), "{out}");
    assert!(
        out.contains("sound: each of 16 layers meets all 4 checks"),
        "{out}"
    );
    assert!(before == bench.snapshot("c"), "the record is removed");
}

#[test]
fn bad_layers_are_counted_and_the_first_is_named() {
    let bench = Bench::with_cabinet();
    damage(&bench, 6, 11);
    damage(&bench, 2, 3);
    damage(&bench, 7, 3);
    for (budget, expected) in [
        (3, "stripe 0 step 3, bad 0 first 0 0"),
        (1, "stripe 0 step 4, bad 1 first 0 3"),
        (11, "stripe 0 step 15, bad 2 first 0 3"),
    ] {
        bench.done(&format!("scrub c --budget {budget}"));
        assert_eq!(record(&bench), expected);
    }
    let message = bench.fails(65, "scrub c --budget 18446744073709551615");
    assert!(
        message.contains("bad: 2 layers of 16 broken, layer 3 is the first"),
        "{message}"
    );
    assert!(!bench.exists("c/scrub.txt"));
    assert!(bench.fails(65, "scrub c").contains("bad: 2 layers"));
}

#[test]
fn a_call_is_done_in_pieces() {
    let bench = Bench::with_cabinet();
    let lines = |out: &str| out.matches(" of 16: ").count();
    assert_eq!(lines(&bench.done("scrub c --budget 5")), 3);
    assert_eq!(lines(&bench.done("scrub c --budget 0")), 1);
    assert_eq!(lines(&bench.done("scrub c")), 6);
    assert_eq!(lines(&bench.done("scrub c")), 8);
}

#[test]
fn a_map_shows_the_bad_layers() {
    let bench = Bench::with_cabinet();
    damage(&bench, 6, 11);
    damage(&bench, 2, 3);
    let nothing_bad = bench.done("scrub c --budget 3");
    assert_eq!(rows(&nothing_bad), [""; 0]);
    let out = bench.done("scrub c --budget 2");
    assert_eq!(rows(&out), ["     0 ...#.--- --------"]);
    assert!(out.contains("# bad"), "{out}");
    bench.done("scrub c --budget 6");
    assert!(record_file(&bench).ends_with("\nbad 1 first 0 3\ncells 3\n"));
    bench.done("scrub c --budget 1");
    assert!(record_file(&bench).ends_with("\nbad 2 first 0 3\ncells 3 11\n"));
    let ended = bench.run("scrub c");
    assert_eq!(ended.status, 65);
    assert_eq!(rows(&ended.out), ["     0 ...#.... ...#...."]);
    assert!(ended.out.contains("bad layers: 3, 11\n"), "{}", ended.out);
}

#[test]
fn a_map_of_sound_layers_is_shown_on_demand() {
    let bench = Bench::with_cabinet();
    let out = bench.done("scrub c --budget 9 --map");
    assert_eq!(rows(&out), ["     0 ........ .-------"]);
    assert!(rows(&bench.done("scrub c")).is_empty());
}

#[test]
fn large_maps_fit_on_a_screen() {
    // Of the last layers one is bad, and of the second half one is looked at: where a cell is four
    // layers, that is not yet a cell.
    for (layout, layers, begun, last) in [
        ("10 3 24 9", 1024, ".-------", "......#."),
        ("12 1 10 11", 4096, "--------", ".......#"),
    ] {
        let bench = Bench::new();
        bench.write("data", &data(100));
        bench.done(&format!("store {layout} --volume 7 data c"));
        damage(&bench, 1, layers - 2);
        let out = bench.done(&format!("scrub c --map --budget {}", layers / 2 + 1));
        assert_readable(&out);
        let map = rows(&out);
        assert_eq!(map.len(), 16, "{out}");
        assert!(map[7].ends_with("........"), "{out}");
        let row = format!("  {:>4} {begun} ", layers / 2);
        assert!(map[8].starts_with(&row), "{out}");
        let ended = bench.run("scrub c");
        assert_readable(&ended.out);
        let map = rows(&ended.out);
        assert_eq!(map.concat().matches('#').count(), 1, "{}", ended.out);
        assert!(map[15].ends_with(last), "{}", ended.out);
    }
}

#[test]
fn pictures_of_layers_are_well_formed() {
    let bench = Bench::with_cabinet();
    damage(&bench, 6, 11);
    bench.done("scrub c --budget 10 --svg picture.svg");
    assert_eq!(cells(&picture(&bench)), [10, 0, 6]);
    bench.done("scrub c --budget 2 --svg picture.svg");
    let drawn = picture(&bench);
    assert_eq!(cells(&drawn), [11, 1, 4]);
    for words in [
        "Layers of cabinet (4, 3, 8, 3)",
        "12 of 16 layers looked at: 1 bad, the first is 11",
        "not looked at yet",
    ] {
        assert!(drawn.contains(words), "{words} is missing");
    }
    bench.fails(65, "scrub c --svg picture.svg");
    assert_eq!(cells(&picture(&bench)), [15, 1, 0]);
    bench.done("store 12 1 10 11 --volume 7 data large");
    bench.done("scrub large --svg picture.svg");
    assert_eq!(cells(&picture(&bench)), [4096, 0, 0]);
}

/// The record stays as it was, and the layers are looked at again.
#[test]
fn a_picture_that_cannot_be_written_ends_the_call() {
    let bench = Bench::with_cabinet();
    bench.done("scrub c --budget 5");
    let before = bench.snapshot(".");
    bench.fails(74, "scrub c --budget 5 --svg .");
    bench.fails(74, "scrub c --svg none/picture.svg");
    assert!(before == bench.snapshot("."));
}

#[test]
fn a_list_of_layers_that_disagrees_is_no_record() {
    let bench = Bench::with_cabinet();
    damage(&bench, 6, 11);
    damage(&bench, 2, 3);
    bench.done("scrub c --budget 13");
    let text = record_file(&bench);
    let broken = [
        "",
        "cells\n",
        "cells 3\n",
        "cells 4 11\n",
        "cells 3 13\n",
        "cells 3 3\n",
        "cells 3 2\n",
        "cells 3 11 12\n",
        "cells 3 11 \n",
        "cells 3 many\n",
        "layers 3 11\n",
        "cells 3 11\nmore\n",
    ];
    for line in broken {
        let other = text.replace("cells 3 11\n", line);
        bench.write("c/scrub.txt", &checked(other.as_bytes()));
        let before = bench.snapshot(".");
        assert!(bench.fails(65, "scrub c").contains("--reset"), "{line}");
        assert!(before == bench.snapshot("."), "{line}: nothing is changed");
    }
    bench.write("c/scrub.txt", text.as_bytes());
    assert!(bench.fails(65, "scrub c").contains("bad: 2 layers"));
}

/// What is wrong in layers that were looked at before is named by the checksum.
#[test]
fn a_tray_that_changes_is_named() {
    let bench = Bench::with_cabinet();
    bench.done("scrub c --budget 5 --record kept");
    damage(&bench, 4, 1);
    let ended = bench.run("scrub c --record kept");
    assert_eq!(ended.status, 65);
    assert!(
        ended.out.contains("tray 4 holds wrong symbols"),
        "{}",
        ended.out
    );
    assert!(ended.err.contains("bad: tray 4"), "{}", ended.err);
    assert!(!bench.exists("kept"));
    bench.done("scrub c --budget 5 --record kept --reset");
    assert!(bench
        .fails(65, "scrub c --record kept")
        .contains("bad: 1 layer of 16 broken, layer 1 is the first"));
    assert!(!bench.exists("kept"));
}

#[test]
fn a_record_that_breaks_a_rule_is_refused() {
    let bench = Bench::with_cabinet();
    bench.done("scrub c --budget 5");
    let text = record_file(&bench);
    for step in ["17", "4294967295", "18446744073709551615"] {
        let other = text.replace("step 5", &format!("step {step}"));
        bench.write("c/scrub.txt", other.as_bytes());
        assert!(bench.fails(65, "scrub c").contains("--reset"), "{step}");
        bench.write("c/scrub.txt", &checked(other.as_bytes()));
        bench.refused(3, "scrub c");
    }
    for (words, other) in [
        ("stripe 0", "stripe 1"),
        ("step 5", "step many"),
        ("step 5", "step 6 7"),
        ("bad 0 first 0 0", "bad 0"),
        ("bad 0 first 0 0", "bad 6 first 0 0"),
        ("bad 0 first 0 0", "bad 1 first 0 5"),
        ("bad 0 first 0 0", "bad 0 first 0 4"),
        ("cells", "cells 4"),
    ] {
        let text = text.replace(words, other);
        bench.write("c/scrub.txt", &checked(text.as_bytes()));
        assert!(bench.fails(65, "scrub c").contains("--reset"), "{other}");
    }
    assert!(bench.done("scrub c --reset").contains("sound"));
}

#[test]
fn a_scrub_with_trays_missing() {
    let bench = Bench::with_cabinet();
    bench.refused(1, "scrub c --layout 4,4,8,3");
    bench.remove("c/tray-03.img");
    bench.poke("c/tray-02.img", LABEL + 3, 2);
    bench.done("scrub c --budget 7");
    let out = bench.ends(16, "scrub c");
    assert!(out.contains("meets all 2 checks"), "{out}");
    assert!(out.contains("not tested: trays 2, 3"), "{out}");
    assert!(!bench.exists("c/scrub.txt"));
}
