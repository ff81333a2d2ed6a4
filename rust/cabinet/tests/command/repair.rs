//! Repairs by shares: whole, in pieces, from share files, broken off and gone astray.

use crate::bench::{assert_readable, data, Bench, LABEL, SYMBOLS};

const LINE: &str = "repair c --lost 4 --helpers 0,2,3";

#[test]
fn every_tray_comes_back() {
    let bench = Bench::with_cabinet();
    let before = bench.snapshot("c");
    for lost in 0..12 {
        let name = format!("c/tray-{lost:02}.img");
        bench.remove(&name);
        let helpers = ["1,2,3", "0,2,3", "0,1,3", "0,1,2"][lost / 3];
        let out = bench.done(&format!("repair c --lost {lost} --helpers {helpers}"));
        assert!(out.contains("24 crossed,  0 to come"), "{out}");
        assert!(out.contains("all trays together are sound"), "{out}");
        assert!(before == bench.snapshot("c"), "tray {lost}");
    }
}

/// A rack that neither hosts nor helps may be missing: the tray is tested with the others.
#[test]
fn racks_that_are_not_asked_may_be_missing() {
    let bench = Bench::new();
    bench.write("data", &data(80));
    bench.done("store 4 3 5 2 --volume 7 data c");
    let before = bench.read("c/tray-01.img");
    bench.remove("c/tray-01.img");
    bench.remove("c/tray-10.img");
    let out = bench.done("repair c --lost 1 --helpers 1,2");
    assert!(out.contains("all trays together are sound"), "{out}");
    assert_eq!(bench.read("c/tray-01.img"), before);
}

#[test]
fn a_large_repair_is_readable() {
    let bench = Bench::new();
    bench.write("data", &data(24_576));
    bench.done("store 10 3 24 9 --volume 7 data c");
    let before = bench.snapshot("c");
    bench.write("c/tray-29.img", b"");
    let out = bench.done("repair c --lost 29 --helpers 0,1,2,3,4,5,6,7,8");
    assert_readable(&out);
    assert!(
        out.contains("groups 448-511   [################] 512 of 512"),
        "{out}"
    );
    assert!(out.contains("4608 crossed,    0 to come"), "{out}");
    assert!(before == bench.snapshot("c"));
}

/// Helpers that are not reachable send files: their trays are not needed.
#[test]
fn shares_come_from_files() {
    let bench = Bench::with_cabinet();
    let before = bench.read("c/tray-04.img");
    for rack in [0, 2, 3] {
        bench.done(&format!("share c --host 1 --helper {rack} share-{rack}"));
        for tray in rack * 3..rack * 3 + 3 {
            bench.remove(&format!("c/tray-{tray:02}.img"));
        }
    }
    bench.remove("c/tray-04.img");
    bench.fails(74, LINE);
    let out = bench.ends(
        16,
        &format!("{LINE} --share share-0 --share share-2 --share share-3"),
    );
    assert!(out.contains("not tested: no tray to spare"), "{out}");
    assert_eq!(bench.read("c/tray-04.img"), before);
}

#[test]
fn a_repair_can_be_cut_anywhere() {
    let bench = Bench::with_cabinet();
    let before = bench.snapshot("c");
    for cut in 0..=8 {
        bench.remove("c/tray-04.img");
        let out = bench.done(&format!("{LINE} --budget {cut}"));
        assert!(out.contains(&format!("{cut} of 8: ")), "{out}");
        if cut < 8 {
            assert!(bench.exists("c/tray-04.spare") && !bench.exists("c/tray-04.img"));
            let out = bench.done(LINE);
            assert!(out.contains(&format!("group {cut} ")), "{out}");
        }
        assert!(before == bench.snapshot("c"), "cut at {cut}");
    }
}

#[test]
fn a_piece_is_done_again_but_none_is_left_out() {
    let bench = Bench::with_cabinet();
    let before = bench.snapshot("c");
    bench.remove("c/tray-04.img");
    bench.done(&format!("{LINE} --first 0 --budget 3"));
    bench.done(&format!("{LINE} --first 1 --budget 1"));
    let message = bench.fails(65, &format!("{LINE} --first 4 --budget 4"));
    assert!(message.contains("only 3 groups are done"), "{message}");
    bench.refused(7, &format!("{LINE} --first 9"));
    bench.refused(6, "repair c --lost 4 --helpers 0,1,3");
    bench.done(&format!("{LINE} --first 3 --budget 18446744073709551615"));
    assert!(before == bench.snapshot("c"));
}

#[test]
fn a_spare_belongs_to_one_repair() {
    let bench = Bench::with_cabinet();
    let before = bench.read("c/tray-04.img");
    bench.remove("c/tray-04.img");
    bench.done(&format!("{LINE} --budget 3 --spare work"));
    assert!(!bench.exists("c/tray-04.spare"));
    bench.write("c/tray-04.img", &before);
    bench.fails(65, "repair c --lost 3 --helpers 0,2,3 --spare work");
    bench.remove("c/tray-04.img");
    bench.forge("c/tray-00.img", SYMBOLS + 6);
    assert!(bench
        .fails(65, &format!("{LINE} --spare work"))
        .contains("another repair"));
    bench.forge("c/tray-00.img", SYMBOLS + 6);
    bench.done(&format!("{LINE} --spare work"));
    assert!(!bench.exists("work"));
    assert_eq!(bench.read("c/tray-04.img"), before);
}

#[test]
fn a_broken_work_file_is_noticed() {
    let bench = Bench::with_cabinet();
    bench.remove("c/tray-04.img");
    bench.done(&format!("{LINE} --budget 3"));
    let whole = bench.read("c/tray-04.spare");
    for broken in [&b""[..], b"spare", &whole[..20]] {
        bench.write("c/tray-04.spare", broken);
        bench.fails(65, LINE);
    }
    bench.write("c/tray-04.spare", &whole[..whole.len() - 1]);
    bench.fails(65, LINE);
    let text = String::from_utf8_lossy(&whole).replace("step 3", "step 9");
    bench.write("c/tray-04.spare", text.as_bytes());
    bench.fails(65, LINE);
}

/// A helper's tray holds a wrong symbol: the tray comes back all the same, and that one is named.
#[test]
fn a_wrong_helper_is_named() {
    let bench = Bench::with_cabinet();
    let whole = bench.read("c/tray-04.img");
    for forged in [false, true] {
        bench.remove("c/tray-04.img");
        let kept = bench.read("c/tray-08.img");
        match forged {
            true => bench.forge("c/tray-08.img", SYMBOLS + 9),
            false => bench.flip("c/tray-08.img", SYMBOLS + 9),
        }
        let out = bench.ends(17, LINE);
        assert!(out.contains("tray 8 holds wrong symbols"), "{out}");
        assert_eq!(bench.read("c/tray-04.img"), whole);
        bench.write("c/tray-08.img", &kept);
    }
}

/// Two helpers hold wrong symbols in one stripe, and nothing tells which: no tray is written.
#[test]
fn a_tray_that_does_not_fit_is_not_written() {
    let bench = Bench::with_cabinet();
    bench.remove("c/tray-04.img");
    bench.forge("c/tray-08.img", SYMBOLS + 9);
    bench.forge("c/tray-00.img", SYMBOLS + 9);
    let message = bench.fails(65, LINE);
    assert!(message.contains("do not fit together"), "{message}");
    assert!(!bench.exists("c/tray-04.img"));
}

/// A demonstration tray beside the lost one, or in a helper rack, stops the repair.
#[test]
fn demonstration_trays_are_never_mixed_in() {
    let bench = Bench::with_cabinet();
    bench.remove("c/tray-04.img");
    for name in ["c/tray-03.img", "c/tray-08.img"] {
        bench.poke(name, LABEL + 3, 2);
        let message = bench.refused(10, LINE);
        assert!(message.contains(name), "{message}");
        bench.poke(name, LABEL + 3, 1);
    }
    bench.done(LINE);
}
