//! Reading layers of a tray: from the store, and from the spare of a tray under repair.

use crate::bench::{assert_readable, checked, data, Bench, LABEL, SYMBOLS};

const REPAIR: &str = "repair c --lost 4 --helpers 0,2,3";
const READ: &str = "read c --tray 4 --lost 4 --layers";

/// A cabinet whose tray 4 is lost and repaired up to this group, and the tray's symbols.
fn under_repair(groups: usize) -> (Bench, Vec<u8>) {
    let bench = Bench::with_cabinet();
    let symbols = bench.read("c/tray-04.img")[SYMBOLS..][..16].to_vec();
    bench.remove("c/tray-04.img");
    bench.done(&format!("{REPAIR} --budget {groups}"));
    (bench, symbols)
}

/// The group of a layer for host rack 1 of the layout (4, 3, 8, 3), where s is 2.
fn group(layer: usize) -> usize {
    layer % 2 + 2 * (layer / 4)
}

/// What a read writes to a file.
fn read(bench: &Bench, line: &str) -> Vec<u8> {
    bench.done(&format!("{line} --out out"));
    let bytes = bench.read("out");
    bench.remove("out");
    bytes
}

#[test]
fn a_repair_cut_at_each_group_gives_the_trays_layers() {
    for cut in 0..8 {
        let (bench, symbols) = under_repair(cut);
        for (layer, symbol) in symbols.iter().enumerate() {
            let line = format!("{READ} {layer}..{}", layer + 1);
            match group(layer) < cut {
                true => assert_eq!(read(&bench, &line), [*symbol], "cut {cut}, layer {layer}"),
                false => drop(bench.refused(13, &line)),
            }
        }
    }
}

#[test]
fn a_run_needs_all_its_layers() {
    let (bench, symbols) = under_repair(4);
    assert_eq!(read(&bench, &format!("{READ} 0..8")), symbols[..8]);
    assert_eq!(read(&bench, &format!("{READ} 3..6")), symbols[3..6]);
    bench.refused(13, &format!("{READ} 0..9"));
    let ended = bench.run(&format!("{READ} 7..16"));
    assert_eq!(
        (ended.status, ended.err.contains("layers 7..16")),
        (13, true)
    );
    assert!(
        ended.out.contains("layers that can be read: 0-7\n"),
        "{}",
        ended.out
    );
    bench.done(REPAIR);
    assert_eq!(read(&bench, "read c --tray 4 --layers 0..16"), symbols);
}

#[test]
fn other_trays_are_read_from_the_store() {
    let (bench, _) = under_repair(3);
    let image = bench.read("c/tray-05.img");
    let line = "read c --tray 5 --layers 3..9";
    for lost in ["", " --lost 4", " --lost 0"] {
        assert_eq!(
            read(&bench, &format!("{line}{lost}")),
            image[SYMBOLS + 3..SYMBOLS + 9],
            "{lost}"
        );
    }
    let out = bench.done(&format!("{line} --lost 4"));
    assert!(
        out.contains("layers 3-8 of tray 5: 6 bytes of the store, from byte 83 on"),
        "{out}"
    );
}

#[test]
fn what_is_printed_is_readable() {
    let bench = Bench::new();
    bench.write("data", b"Mo 06:00 Cl 0.6\nMo 18:00 Cl 0.7\n");
    bench.done("store 10 3 24 9 --volume 7 data c");
    let out = bench.done("read c --tray 0 --layers 3..22");
    assert_readable(&out);
    for line in [
        "     3  30 36 3A 30 30 20 43 6C 20 30 2E 36 0A 4D 6F 20  06:00 Cl 0.6.Mo ",
        "    19  31 38 3A                                         18:",
    ] {
        assert!(out.contains(line), "{out}");
    }
    bench.remove("c/tray-29.img");
    bench.done("repair c --lost 29 --helpers 0,1,2,3,4,5,6,7,8 --budget 300");
    assert_readable(&bench.done("read c --tray 29 --lost 29 --layers 0..300"));
    assert_readable(&bench.run("read c --tray 29 --lost 29 --layers 0..1024").out);
}

#[test]
fn an_empty_run_is_an_empty_part() {
    let (bench, _) = under_repair(0);
    for layers in ["0..0", "5..5", "16..16"] {
        assert_eq!(read(&bench, &format!("{READ} {layers}")), b"");
        assert_eq!(
            read(&bench, &format!("read c --tray 11 --layers {layers}")),
            b""
        );
        assert!(bench
            .done(&format!("{READ} {layers}"))
            .contains("no layer of tray 4: 0 bytes"));
    }
}

#[test]
fn numbers_outside_the_layout() {
    let (bench, _) = under_repair(3);
    bench.refused(1, &format!("{READ} 0..1 --layout 4,4,8,3"));
    for layers in ["0..17", "17..17", "6..5", "4294967295..0"] {
        bench.refused(3, &format!("{READ} {layers}"));
        bench.refused(3, &format!("read c --tray 5 --layers {layers}"));
    }
    bench.refused(3, "read c --tray 12 --layers 0..1");
    bench.refused(3, "read c --tray 12 --lost 4 --layers 0..1");
    bench.refused(3, "read c --tray 5 --lost 12 --layers 0..1");
}

/// Whatever is asked of it, also nothing.
#[test]
fn a_tray_that_is_not_live_is_not_handed_out() {
    let (bench, _) = under_repair(3);
    let lines = [
        "read c --tray 8 --layers 0..4",
        "read c --tray 8 --layers 0..0 --lost 4",
    ];
    let image = bench.read("c/tray-08.img");
    for (at, byte, ground) in [(3, 2, 10), (12, 8, 11), (2, 2, 9)] {
        bench.poke("c/tray-08.img", LABEL + at, byte);
        lines
            .iter()
            .for_each(|line| drop(bench.refused(ground, line)));
        bench.write("c/tray-08.img", &image);
    }
    bench.write("c/tray-08.img", &bench.read("c/tray-07.img"));
    lines.iter().for_each(|line| drop(bench.fails(65, line)));
    bench.remove("c/tray-08.img");
    lines.iter().for_each(|line| drop(bench.fails(74, line)));
    bench.refused(3, "read c --tray 8 --layers 0..17");
}

/// A demonstration image in the lost tray's place is never looked at, and never handed out.
#[test]
fn a_demonstration_image_of_the_lost_tray() {
    let (bench, symbols) = under_repair(3);
    let mut image = bench.read("c/tray-05.img");
    (image[LABEL + 3], image[LABEL + 8]) = (2, 4);
    bench.write("c/tray-04.img", &image);
    assert_eq!(read(&bench, &format!("{READ} 0..5")), symbols[..5]);
    bench.refused(13, &format!("{READ} 5..6"));
    bench.refused(10, "read c --tray 4 --layers 0..5");
}

#[test]
fn a_foreign_spare_is_not_read() {
    let (bench, _) = under_repair(7);
    bench.write("data2", &data(101)[1..]);
    bench.done("store 4 3 8 3 --volume 8 data other");
    bench.done("store 4 3 8 3 --volume 7 data2 stale");
    bench.done("store 4 3 7 3 --volume 7 data2 layout");
    let spare = "--layers 0..1 --spare c/tray-04.spare";
    for line in [
        "read c --tray 3 --lost 3",
        "read c --tray 5 --lost 3",
        "read other --tray 4 --lost 4",
        "read layout --tray 4 --lost 4",
        "read stale --tray 4 --lost 4",
        "read stale --tray 5 --lost 4",
    ] {
        let message = bench.fails(65, &format!("{line} {spare}"));
        assert!(message.contains("another repair"), "{message}");
    }
    bench.done("read stale --tray 4 --layers 0..1");
}

#[test]
fn a_changed_tray_or_file_is_noticed() {
    let (bench, _) = under_repair(7);
    let line = format!("{READ} 0..1");
    bench.done(&line);
    for name in ["c/tray-00.img", "c/tray-03.img"] {
        bench.forge(name, SYMBOLS + 15);
        bench.fails(65, &line);
        bench.forge(name, SYMBOLS + 15);
    }
    let whole = bench.read("c/tray-04.spare");
    let text = String::from_utf8_lossy(&whole);
    for (word, broken) in [
        ("step 7", "step 9"),
        ("step 7", "step -1"),
        ("racks 0 2 3", "racks 0 1 3"),
        ("racks 0 2 3", "racks 0 2"),
        ("racks 0 2 3", "racks 0 2 3 4"),
        (" step 7", ""),
    ] {
        let text = text.replace(word, broken);
        bench.write("c/tray-04.spare", &checked(text.as_bytes()));
        bench.fails(65, &line);
    }
    bench.write("c/tray-04.spare", b"");
    bench.fails(65, &line);
    bench.write("c/tray-04.spare", &checked(&whole[..whole.len() - 1]));
    bench.fails(65, &line);
}

/// Layers that do not fit to the other trays are not handed out, as no tray is written of them.
#[test]
fn layers_that_do_not_fit_are_not_handed_out() {
    let bench = Bench::with_cabinet();
    bench.remove("c/tray-04.img");
    for tray in ["08", "11"] {
        bench.forge(&format!("c/tray-{tray}.img"), SYMBOLS + 6);
    }
    bench.fails(65, REPAIR);
    let message = bench.fails(65, &format!("{READ} 0..16"));
    assert!(
        message.contains("do not fit together in layer"),
        "{message}"
    );
    let out = bench.done(&format!("{READ} 0..4"));
    assert!(out.contains("tested: they fit to the other trays"), "{out}");
}

/// Where shares cannot be worked out again, tray and cabinet must be right all the same.
#[test]
fn a_spare_made_from_share_files() {
    let (bench, symbols) = under_repair(5);
    bench.done("store 4 3 8 3 --volume 8 data other");
    for tray in ["00", "07", "11"] {
        bench.remove(&format!("c/tray-{tray}.img"));
        bench.remove(&format!("other/tray-{tray}.img"));
    }
    let out = bench.done(&format!("{READ} 0..5"));
    assert!(out.contains("not compared: "), "{out}");
    assert!(out.contains("tested: they fit to the other trays"), "{out}");
    assert_eq!(read(&bench, &format!("{READ} 0..5")), symbols[..5]);
    bench.remove("c/tray-01.img");
    let out = bench.ends(16, &format!("{READ} 0..5"));
    assert!(out.contains("not tested: no tray to spare"), "{out}");
    bench.fails(
        65,
        "read other --tray 4 --lost 4 --layers 0..1 --spare c/tray-04.spare",
    );
    bench.fails(
        65,
        "read c --tray 3 --lost 3 --layers 0..1 --spare c/tray-04.spare",
    );
}

#[test]
fn without_a_work_file_no_group_is_done() {
    let bench = Bench::with_cabinet();
    let ended = bench.run(&format!("{READ} 0..1"));
    assert_eq!(ended.status, 13);
    assert!(
        ended.out.contains("there is no checkpoint c/tray-04.spare"),
        "{}",
        ended.out
    );
    assert!(
        ended.out.contains("layers that can be read: none"),
        "{}",
        ended.out
    );
}
