//! Files in, files out: storing, testing, recovering, margins and tray images.

use crate::bench::{assert_readable, checksum, data, Bench, LABEL, SYMBOLS};

/// Turns a tray's image into a demonstration image.
fn make_demonstration(bench: &Bench, name: &str) {
    bench.poke(name, LABEL + 3, 2);
}

#[test]
fn images_are_those_of_document_01() {
    let bench = Bench::new();
    bench.write("data", &[0xA7]);
    bench.done("store 2 1 1 1 --volume 7 data c");
    let image = [
        0x18, 0, 1, 1, 2, 1, 1, 1, 1, 0, 0, 0, 7, 0, 0, 0, 0x18, 0, 0, 0, 1, 0, 0, 0, 0xA7,
    ];
    let tray = bench.read("c/tray-01.img");
    assert_eq!(tray[LABEL..LABEL + 25], image);
    let sum = checksum(0, &[0xA7]);
    let lines = format!(
        "cabinet format 2\nlayout 2 1 1 1\nfield 256\nvolume 7\ngeneration 1\nstripes 1\n\
         segment 4096\nlength 1\nchecksum {sum:016x}\n"
    );
    let start = checksum(0, lines.as_bytes());
    assert_eq!(tray[LABEL + 25..], checksum(start, &image).to_le_bytes());
    let check = |text: &str| format!("{text}{:016x}\n", checksum(0, text.as_bytes()));
    let description = check(&format!("{lines}check "));
    assert_eq!(bench.read("c/cabinet.txt"), description.as_bytes());
    let label = check(&format!("{:<488}\ncheck ", format!("{lines}tray 1\n")));
    assert_eq!(tray[..LABEL], *label.as_bytes());
}

#[test]
fn symbols_are_those_of_document_01() {
    let bench = Bench::new();
    bench.write("data", &[0x14, 0x14, 0x18, 0x18, 0x24, 0x24, 0x28, 0x28]);
    bench.done("store 3 1 1 2 --volume 1 data c");
    let trays = [
        (
            "c/tray-00.img",
            [0x14, 0x14, 0x18, 0x18, 0x24, 0x24, 0x28, 0x28],
        ),
        (
            "c/tray-01.img",
            [0x11, 0x12, 0x11, 0x12, 0x21, 0x22, 0x21, 0x22],
        ),
        (
            "c/tray-02.img",
            [0x05, 0x06, 0x09, 0x0A, 0x05, 0x06, 0x09, 0x0A],
        ),
    ];
    for (name, symbols) in trays {
        assert_eq!(bench.read(name)[SYMBOLS..][..8], symbols, "{name}");
    }
    for (helper, symbols) in [(1, [3; 4]), (2, [3; 4])] {
        bench.done(&format!("share c --host 0 --helper {helper} share"));
        assert_eq!(bench.read("share"), symbols);
    }
    bench.done("share c --host 1 --helper 0 share");
    assert_eq!(bench.read("share"), [0x0C; 4]);
}

#[test]
fn a_short_file_is_filled_up_with_zeros() {
    let bench = Bench::new();
    bench.write("data", &data(100));
    let out = bench.done("store 4 3 8 3 --volume 7 data c");
    assert!(
        out.contains("100 bytes stored, 128 fit: 28 zeros added"),
        "{out}"
    );
    bench.done("get c back --replace");
    assert_eq!(bench.read("back"), data(100));
    let mut filled = data(100);
    filled.resize(128, 0);
    bench.done("get c whole --length 128");
    assert_eq!(bench.read("whole"), filled);
    bench.remove("c/cabinet.txt");
    bench.done("get c back --replace");
    assert_eq!(bench.read("back"), data(100), "the labels say how long");
    bench.write("empty", b"");
    bench.done("store 4 3 8 3 --volume 7 empty e");
    bench.done("test e");
    bench.done("get e back --replace");
    assert_eq!(bench.read("back"), b"");
}

#[test]
fn a_cabinet_is_replaced_only_on_demand() {
    let bench = Bench::with_cabinet();
    let before = bench.snapshot("c");
    bench.write("other", &data(5));
    let message = bench.fails(74, "store 4 3 8 3 --volume 8 other c");
    assert!(message.contains("--replace"), "{message}");
    assert!(before == bench.snapshot("c"));
    bench.done("store 4 3 8 3 --volume 8 --replace other c");
    assert!(bench.done("test c").contains("volume 8"));
}

#[test]
fn a_sound_and_a_bad_cabinet() {
    let bench = Bench::with_cabinet();
    assert!(bench
        .done("test c")
        .contains("sound: each of 16 layers meets all 4 checks"));
    bench.flip("c/tray-06.img", SYMBOLS + 11);
    let ended = bench.run("test c");
    assert_eq!(ended.status, 65);
    let words = "bad: 1 layer of 16 broken, layer 11 is the first";
    assert!(ended.err.contains(words), "{}", ended.err);
    assert!(
        ended.out.contains("tray 6 holds wrong symbols"),
        "{}",
        ended.out
    );
}

#[test]
fn trays_that_cannot_be_used_are_not_tested() {
    let bench = Bench::with_cabinet();
    bench.remove("c/tray-03.img");
    let out = bench.ends(16, "test c");
    assert!(out.contains("tray  3 is not used: absent"), "{out}");
    assert!(out.contains("meets all 3 checks"), "{out}");
    make_demonstration(&bench, "c/tray-02.img");
    let out = bench.ends(16, "test c");
    assert!(out.contains("tray  2 is not used: refused (10)"), "{out}");
    assert!(out.contains("not tested: trays 2, 3"), "{out}");
}

#[test]
fn trays_come_back_whatever_became_of_them() {
    let bench = Bench::with_cabinet();
    let before = bench.snapshot("c");
    bench.remove("c/tray-00.img");
    bench.write("c/tray-04.img", b"rust");
    make_demonstration(&bench, "c/tray-07.img");
    bench.write("c/tray-11.img", &bench.read("c/tray-10.img"));
    let out = bench.done("recover c");
    for why in [
        "tray  0 is not used: absent",
        "tray  4 is not used: refused (9)",
        "tray  7 is not used: refused (10)",
        "tray 11 is not used: the file holds tray 10",
        "brought back: trays 0, 4, 7, 11",
    ] {
        assert!(out.contains(why), "{why} is missing in\n{out}");
    }
    assert!(
        before == bench.snapshot("c"),
        "the cabinet is as it was stored"
    );
    assert!(bench.done("recover c").contains("no tray to bring back"));
}

#[test]
fn a_tray_of_another_cabinet_is_not_used() {
    let bench = Bench::with_cabinet();
    bench.done("store 4 3 8 3 --volume 8 data other");
    let before = bench.snapshot("c");
    bench.write("c/tray-05.img", &bench.read("other/tray-05.img"));
    assert!(bench
        .done("recover c")
        .contains("tray  5 is not used: its label is of another cabinet"));
    assert!(before == bench.snapshot("c"));
}

#[test]
fn data_are_not_written_among_the_trays() {
    let bench = Bench::with_cabinet();
    let before = bench.snapshot("c");
    for file in ["c/tray-00.img", "c/../c/data", "./c/cabinet.txt"] {
        assert_eq!(bench.run(&format!("get c {file}")).status, 64, "{file}");
    }
    assert!(before == bench.snapshot("c"));
    bench.done("get c c.data");
    assert!(bench.read("c.data") == bench.read("data"));
}

#[test]
fn a_suspected_tray_can_be_erased() {
    let bench = Bench::with_cabinet();
    let before = bench.snapshot("c");
    bench.flip("c/tray-06.img", SYMBOLS + 6);
    bench.ends(17, "recover c --erase 6");
    assert!(before == bench.snapshot("c"));
    bench.done("recover c --erase 6");
    assert!(before == bench.snapshot("c"));
}

#[test]
fn every_r_trays_can_be_lost() {
    let bench = Bench::with_cabinet();
    let before = bench.snapshot("c");
    for first in 0..12 {
        for step in [1, 2, 5] {
            for place in 0..4 {
                let name = format!("c/tray-{:02}.img", (first + place * step) % 12);
                bench.remove(&name);
            }
            bench.done("recover c");
            assert!(before == bench.snapshot("c"), "first {first}, step {step}");
        }
    }
}

#[test]
fn the_margin_counts_what_is_there() {
    let bench = Bench::with_cabinet();
    assert!(bench
        .done("margin c")
        .contains("margin 4: any 4 trays more may be lost"));
    make_demonstration(&bench, "c/tray-03.img");
    let out = bench.done("margin c");
    assert!(
        out.contains("11 live, 1 demonstration, 0 absent; 8 are needed"),
        "{out}"
    );
    assert!(out.contains("rack  1  (3)   4   5"), "{out}");
    assert!(out.contains("3: any 3 trays more may be lost"), "{out}");
    assert_readable(&out);
    bench.remove("c/tray-03.img");
    for tray in ["00", "01", "02", "09"] {
        bench.remove(&format!("c/tray-{tray}.img"));
    }
    let out = bench.done("margin c");
    assert!(out.contains("7 live, 0 demonstration, 5 absent"), "{out}");
    assert!(out.contains("margin -1: too few live trays by 1"), "{out}");
}

#[test]
fn expected_numbers_can_be_given() {
    let bench = Bench::with_cabinet();
    bench.done("test c --layout 4,3,8,3 --volume 7");
    let out = bench.run("test c --volume 8").out;
    assert!(out.contains("tray  0 is not used: refused (11)"), "{out}");
    bench.refused(5, "get c back --volume 8");
    // Where there is neither a label nor a description, they must be.
    (0..12).for_each(|tray| bench.remove(&format!("c/tray-{tray:02}.img")));
    bench.remove("c/cabinet.txt");
    assert!(bench.fails(64, "test c").contains("--layout B,u,k,d"));
    bench.fails(64, "test c --volume 7");
    for text in [
        "",
        "cabinet format 2\n",
        "layout 4 3 8\nvolume 7\n",
        "layout 4 3 8 3\nvolume 7\nmore\n",
        "volume 7\n",
        "layout 4 3 8 3\nvolume 7\nstripes 1\n",
        "layout 4 3 8 3\nvolume 7\nstripes 0\nlength 0\n",
        "layout 4 3 8 3\nvolume 4294967295\nstripes 2\nlength 200\n",
        "layout 4 3 8 3\nvolume 7\nlength 128\nstripes 1\n",
    ] {
        bench.write("c/cabinet.txt", text.as_bytes());
        bench.fails(65, "test c");
    }
}

#[test]
fn files_in_words() {
    let bench = Bench::with_cabinet();
    let out = bench.done("inspect c/tray-07.img");
    for words in [
        "length    560 bytes",
        "label     tray 7 of generation 1, 1 stripe",
        "24 bytes, edition 1",
        "1, live",
        "(4, 3, 8, 3): 4 racks of 3 trays",
        "7, rack 2, place 1",
        "volume    7",
        "16 from byte 24",
        "handed out as live tray 7",
    ] {
        assert!(out.contains(words), "{words} is missing in\n{out}");
    }
    make_demonstration(&bench, "c/tray-07.img");
    bench.flip("c/tray-08.img", SYMBOLS);
    let ended = bench.run("inspect c/tray-06.img c/tray-07.img c/tray-08.img c/none c/cabinet.txt");
    assert_eq!(ended.status, 10, "the first that is refused");
    for words in [
        "handed out as live tray 6",
        "refused (10)",
        "its checksum is wrong",
        "no such file",
        "refused (9)",
    ] {
        assert!(
            ended.out.contains(words),
            "{words} is missing in\n{}",
            ended.out
        );
    }
    bench.fails(65, "inspect c/tray-08.img");
}

/// Without a cabinet beside it a file is held against its own label, and a broken one still gets 9.
#[test]
fn files_without_a_cabinet() {
    let bench = Bench::with_cabinet();
    let image = bench.read("c/tray-07.img");
    bench.write("alone", &image);
    bench.done("inspect alone");
    bench.refused(11, "inspect alone --volume 8");
    bench.refused(1, "inspect alone --layout 2,2,2,1");
    for at in [0, 1, 2, 4, 5, 8, 9, 10, 11, 16, 20] {
        bench.write("broken", &image);
        bench.poke("broken", LABEL + at, 0xEE);
        bench.refused(9, "inspect broken");
    }
    for length in [LABEL, LABEL + 1, LABEL + 23, LABEL + 24, LABEL + 39] {
        bench.write("broken", &image[..length]);
        bench.refused(9, "inspect broken");
    }
    for length in [561, 2 << 20] {
        let mut bytes = image.clone();
        bytes.resize(length, 0);
        bench.write("broken", &bytes);
        let message = bench.fails(65, "inspect broken");
        assert!(message.contains("it is too long"), "{message}");
    }
    bench.write("broken", &image[..LABEL + 40]);
    bench.fails(65, "inspect broken");
    bench.fails(74, "inspect c");
}
