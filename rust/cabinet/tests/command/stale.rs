//! Cabinets in which a rack may send a wrong share.

use crate::bench::{assert_readable, data, Bench, LABEL, SYMBOLS};

const LINE: &str = "repair c --lost 4 --helpers 0,2,3,5";

/// Writes another symbol over one, with the checksum that goes with it.
fn change(bench: &Bench, name: &str, layer: usize) {
    bench.forge(name, SYMBOLS + layer);
}

#[test]
fn the_fifth_number_is_kept() {
    let bench = Bench::with_a_stale_rack();
    let text = String::from_utf8(bench.read("c/cabinet.txt")).expect("text");
    assert!(text.contains("\nlayout 6 3 5 4 1\n"), "{text}");
    assert_eq!(
        bench.read("c/tray-04.img")[LABEL + 4..LABEL + 12],
        [6, 3, 5, 4, 4, 1, 0, 0]
    );
    assert!(bench.done("test c").contains("sound"));
    let shown = bench.done("inspect c/tray-04.img");
    assert!(
        shown.contains("layout    (6, 3, 5, 4, 1): 6 racks of 3 trays"),
        "{shown}"
    );
    bench.done("test c --layout 6,3,5,4,1");
    bench.refused(5, "get c out --layout 6,3,5,4");
    bench.refused(5, "get c out --layout 6,3,5,4,0");
    bench.refused(1, "test c --layout 6,3,5,4,2");
}

#[test]
fn every_tray_comes_back() {
    let bench = Bench::with_a_stale_rack();
    let before = bench.snapshot("c");
    for lost in 0..18 {
        bench.remove(&format!("c/tray-{lost:02}.img"));
        let others = (0..6).filter(|rack| *rack != lost / 3);
        let helpers: Vec<String> = others.take(4).map(|rack| rack.to_string()).collect();
        let helpers = helpers.join(",");
        let out = bench.done(&format!("repair c --lost {lost} --helpers {helpers}"));
        assert_readable(&out);
        assert!(
            out.contains("4 racks send shares, 128 symbols in all"),
            "{out}"
        );
        assert!(out.contains("every share is right"), "{out}");
        assert!(out.contains("all trays together are sound"), "{out}");
        assert!(before == bench.snapshot("c"), "tray {lost}");
    }
}

/// A helper's trays hold other symbols than they should: the tray comes back all the same.
#[test]
fn a_stale_rack_is_named() {
    let bench = Bench::with_a_stale_rack();
    let tray = bench.read("c/tray-04.img");
    let whole = bench.snapshot("c");
    for place in [0, 6, 63] {
        change(&bench, "c/tray-10.img", place);
    }
    bench.remove("c/tray-04.img");
    let out = bench.ends(17, LINE);
    assert_readable(&out);
    for words in [
        "rack 3 is stale: its share is wrong, and was set right by the others",
        "tray 4 is whole; all trays but those of rack 3 are sound together",
        "trays of rack 3 hold wrong symbols",
    ] {
        assert!(out.contains(words), "{words} is missing in\n{out}");
    }
    assert_eq!(bench.read("c/tray-04.img"), tray);
    bench.ends(17, "recover c");
    assert!(whole == bench.snapshot("c"), "the rack is as it was");
}

/// Only the file of the share is stale: the trays are all sound.
#[test]
fn a_stale_share_file_is_named() {
    let bench = Bench::with_a_stale_rack();
    let before = bench.snapshot("c");
    let mut line = LINE.to_string();
    for rack in [0, 2, 3, 5] {
        bench.done(&format!("share c --host 1 --helper {rack} share-{rack}"));
        line += &format!(" --share share-{rack}");
    }
    bench.write("share-5", &[0xEE; 32]);
    bench.remove("c/tray-04.img");
    let out = bench.ends(17, &line);
    assert!(out.contains("rack 5 is stale"), "{out}");
    assert!(out.contains("all trays together are sound"), "{out}");
    assert!(before == bench.snapshot("c"));
    bench.remove("c/tray-04.img");
    bench.flip("share-0", 31);
    let message = bench.refused(14, &line);
    assert!(
        message.contains("more than one helper's share is wrong"),
        "{message}"
    );
    assert!(!bench.exists("c/tray-04.img"));
}

/// A rack that neither hosts nor helps may be missing; and one that is named, where its trays are.
#[test]
fn racks_that_are_not_asked_may_be_missing() {
    let bench = Bench::with_a_stale_rack();
    let tray = bench.read("c/tray-04.img");
    bench.remove("c/tray-04.img");
    bench.remove("c/tray-13.img");
    change(&bench, "c/tray-08.img", 50);
    let out = bench.ends(17, LINE);
    assert!(out.contains("rack 2 is stale"), "{out}");
    assert!(
        out.contains("all trays but those of rack 2 are sound"),
        "{out}"
    );
    assert_eq!(bench.read("c/tray-04.img"), tray);
}

/// A wrong symbol beside the lost tray, which no share tells of: the code does, and names the tray.
#[test]
fn a_wrong_tray_beside_the_lost_one_is_named() {
    let bench = Bench::with_a_stale_rack();
    let tray = bench.read("c/tray-04.img");
    bench.remove("c/tray-04.img");
    change(&bench, "c/tray-03.img", 33);
    let out = bench.ends(17, LINE);
    assert!(out.contains("tray 3 holds wrong symbols"), "{out}");
    assert_eq!(bench.read("c/tray-04.img"), tray);
    // A stale rack besides: then two trays are wrong, and nothing is written.
    bench.remove("c/tray-04.img");
    change(&bench, "c/tray-08.img", 60);
    change(&bench, "c/tray-08.img", 33);
    bench.fails(65, LINE);
    assert!(!bench.exists("c/tray-04.img"));
}

#[test]
fn there_are_no_pieces() {
    let bench = Bench::with_a_stale_rack();
    bench.remove("c/tray-04.img");
    for setting in ["--budget 1", "--first 0", "--spare s"] {
        let message = bench.fails(64, &format!("{LINE} {setting}"));
        assert!(message.contains("all groups are done at once"), "{message}");
    }
    bench.refused(1, "repair c --lost 3,4 --helpers 0,2,3,5");
    bench.refused(1, "share c --host 1 --helper 0 --count 2 s");
    bench.refused(1, "read c --tray 3 --layers 0..1");
    bench.refused(3, "repair c --lost 18 --helpers 0,2,3,5");
    bench.refused(4, "repair c --lost 4 --helpers 2,0,3,5");
    bench.refused(5, "repair c --lost 4 --helpers 0,2,3");
    bench.refused(6, "repair c --lost 4 --helpers 0,1,2,3");
}

#[test]
fn in_the_field_of_257_too() {
    let bench = Bench::new();
    bench.write("data", &data(7 * 64));
    bench.done("store 6 4 7 4 1 --volume 7 --field 257 data c");
    let text = String::from_utf8(bench.read("c/cabinet.txt")).expect("text");
    assert!(text.contains("\nlayout 6 4 7 4 1\nfield 257\n"), "{text}");
    let tray = bench.read("c/tray-05.img");
    bench.remove("c/tray-05.img");
    change(&bench, "c/tray-12.img", 2);
    let out = bench.ends(17, "repair c --lost 5 --helpers 0,2,3,5");
    assert!(out.contains("rack 3 is stale"), "{out}");
    assert_eq!(bench.read("c/tray-05.img"), tray);
    assert!(
        bench.done("margin c").contains("margin 17"),
        "all trays are there"
    );
}
