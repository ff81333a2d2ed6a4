//! Cabinets in the field of 257: the same commands, two bytes a symbol, and racks of four.

use crate::bench::{assert_readable, checked, data, Bench, LABEL, SYMBOLS};
use crate::xml::assert_well_formed;

const REPAIR: &str = "repair c --lost 6 --helpers 0,2,3,4";

fn image(tray: usize) -> String {
    format!("c/tray-{tray:02}.img")
}

/// The symbols of a file, from a place on and up to so many bytes before its end.
fn symbols(bench: &Bench, name: &str, from: usize, but: usize) -> Vec<u16> {
    let bytes = bench.read(name);
    let pairs = bytes[from..bytes.len() - but].chunks(2);
    pairs
        .map(|pair| u16::from_le_bytes([pair[0], pair[1]]))
        .collect()
}

/// Writes a symbol of a tray over another, with the checksum that goes with it.
fn change(bench: &Bench, tray: usize, layer: usize, symbol: u16) {
    for (place, byte) in symbol.to_le_bytes().into_iter().enumerate() {
        bench.poke(&image(tray), SYMBOLS + 2 * layer + place, byte);
    }
    bench.sum(&image(tray));
}

#[test]
fn images_have_edition_2_and_two_bytes_a_symbol() {
    let bench = Bench::new();
    bench.write("data", &[1]);
    bench.done("store 2 1 1 1 --volume 7 --field 257 data c");
    let image = [
        0x18, 0, 2, 1, 2, 1, 1, 1, 1, 0, 0, 0, 7, 0, 0, 0, 0x18, 0, 0, 0, 1, 0, 0, 0, 0, 1,
    ];
    assert_eq!(bench.read("c/tray-01.img")[LABEL..LABEL + 26], image);
    let text = String::from_utf8(bench.read("c/cabinet.txt")).expect("text");
    assert!(text.contains("\nfield 257\nvolume 7\n"), "{text}");
}

#[test]
fn symbols_are_those_of_the_field() {
    let bench = Bench::new();
    bench.write("data", &[5, 7]);
    bench.done("store 2 2 2 1 --volume 7 --field 257 data c");
    for (tray, symbol) in [5, 7, 80, 165].into_iter().enumerate() {
        assert_eq!(symbols(&bench, &image(tray), SYMBOLS, 8), [symbol]);
    }
    bench.done("share c --host 0 --helper 1 share");
    assert_eq!(bench.read("share"), [245, 0]);
}

#[test]
fn data_come_back_from_any_fifteen_trays() {
    let bench = Bench::with_racks_of_four();
    let before = bench.snapshot("c");
    assert!(bench
        .done("test c")
        .contains("sound: each of 32 layers meets all 5 checks"));
    for first in 0..20 {
        for step in [1, 3] {
            (0..5).for_each(|place| bench.remove(&image((first + place * step) % 20)));
            bench.done("get c back --replace");
            bench.done("recover c");
            assert!(before == bench.snapshot("c"), "first {first}, step {step}");
            assert_eq!(bench.read("back"), data(480));
        }
    }
    (0..6).for_each(|tray| bench.remove(&image(tray)));
    bench.refused(5, "recover c");
}

#[test]
fn every_tray_of_a_rack_of_four_comes_back() {
    let bench = Bench::with_racks_of_four();
    let before = bench.snapshot("c");
    for lost in 0..20 {
        bench.remove(&image(lost));
        let helpers = ["1,2,3,4", "0,2,3,4", "0,1,3,4", "0,1,2,4", "0,1,2,3"][lost / 4];
        let out = bench.done(&format!("repair c --lost {lost} --helpers {helpers}"));
        assert_readable(&out);
        assert!(out.contains("64 crossed,  0 to come"), "{out}");
        assert!(out.contains("all trays together are sound"), "{out}");
        assert!(before == bench.snapshot("c"), "tray {lost}");
    }
}

/// In (5, 4, 12, 4), v is 0: a whole rack can be repaired by shares.
#[test]
fn several_trays_come_back() {
    let bench = Bench::new();
    bench.write("data", &data(384));
    bench.done("store 5 4 12 4 --volume 7 --field 257 data c");
    let before = bench.snapshot("c");
    for lost in ["5,7", "4,5,6", "4,5,6,7"] {
        for tray in lost.split(',') {
            bench.remove(&format!("c/tray-{:0>2}.img", tray));
        }
        bench.done(&format!(
            "repair c --lost {lost} --helpers 0,2,3,4 --budget 5"
        ));
        bench.done(&format!("repair c --lost {lost} --helpers 0,2,3,4"));
        assert!(before == bench.snapshot("c"), "{lost}");
    }
}

#[test]
fn shares_come_from_files() {
    let bench = Bench::with_racks_of_four();
    let before = bench.read(&image(6));
    let mut line = REPAIR.to_string();
    for rack in [0, 2, 3, 4] {
        bench.done(&format!("share c --host 1 --helper {rack} share-{rack}"));
        assert_eq!(bench.read(&format!("share-{rack}")).len(), 32);
        assert!(symbols(&bench, &format!("share-{rack}"), 0, 0)
            .iter()
            .all(|&symbol| symbol <= 256));
        line += &format!(" --share share-{rack}");
        (rack * 4..rack * 4 + 4).for_each(|tray| bench.remove(&image(tray)));
    }
    bench.remove(&image(6));
    let share = bench.read("share-2");
    for length in [31, 33, 16] {
        let mut bytes = share.clone();
        bytes.resize(length, 0);
        bench.write("share-2", &bytes);
        let message = bench.refused(2, &line);
        assert!(message.contains("a share has 32"), "{message}");
    }
    bench.write("share-2", &share);
    bench.poke("share-2", 31, 2);
    bench.fails(3, &line);
    assert!(!bench.exists(&image(6)));
    bench.write("share-2", &share);
    bench.ends(16, &line);
    assert_eq!(bench.read(&image(6)), before);
}

/// The group of a layer for host rack 1 where s is 2.
fn group(layer: usize) -> usize {
    layer % 2 + 2 * (layer / 4)
}

#[test]
fn a_repair_cut_at_each_group_gives_the_trays_layers() {
    let bench = Bench::with_racks_of_four();
    let before = bench.read(&image(6));
    bench.remove(&image(6));
    for cut in 0..16 {
        for layer in 0..32 {
            let line = format!("read c --tray 6 --lost 6 --layers {layer}..{}", layer + 1);
            if group(layer) < cut {
                bench.done(&format!("{line} --out out"));
                assert_eq!(bench.read("out"), before[SYMBOLS + 2 * layer..][..2]);
            } else {
                bench.refused(13, &line);
            }
        }
        bench.done(&format!("{REPAIR} --budget 1"));
    }
    assert_eq!(bench.read(&image(6)), before);
    assert!(!bench.exists("c/tray-06.spare"));
}

#[test]
fn what_is_read_is_readable() {
    let bench = Bench::new();
    bench.write("data", b"Mo 06:00 Cl 0.6\n");
    bench.done("store 5 4 15 4 --volume 7 --field 257 data c");
    let out = bench.done("read c --tray 0 --layers 3..16");
    assert_readable(&out);
    for line in [
        "layers 3-15 of tray 0: 13 symbols of the store, from symbol 3 on",
        "     3  030 036 03A 030 030 020 043 06C 020 030 02E 036  06:00 Cl 0.6",
        "    15  00A                                              .",
    ] {
        assert!(out.contains(line), "{out}");
    }
}

#[test]
fn a_scrub_in_pieces() {
    let bench = Bench::with_racks_of_four();
    let symbol = symbols(&bench, &image(9), SYMBOLS, 8)[20];
    bench.done("scrub c --budget 10");
    let text = String::from_utf8(bench.read("c/scrub.txt")).expect("the record is text");
    assert!(text.starts_with("scrub of (5, 4, 15, 4) modulo 257 volume 7 stripes 1 generation 1 "));
    assert!(text.contains("\nstripe 0 step 10 over "));
    assert!(bench.done("scrub c").contains("sound"));
    change(&bench, 9, 20, (symbol + 1) % 257);
    let message = bench.fails(65, "scrub c --svg picture.svg");
    assert!(message.contains("bad: 1 layer of 32 broken, layer 20 is the first"));
    let picture = String::from_utf8(bench.read("picture.svg")).expect("a picture is text");
    assert_well_formed(&picture);
    assert!(picture.contains(">Layers of cabinet (5, 4, 15, 4) modulo 257<"));
    let message = bench.fails(65, "test c");
    assert!(message.contains("layer 20 is the first"), "{message}");
    bench.ends(17, "recover c --erase 9");
    bench.done("test c");
}

#[test]
fn the_margin_counts_what_is_there() {
    let bench = Bench::with_racks_of_four();
    let out = bench.done("margin c");
    assert_readable(&out);
    assert!(
        out.contains("Cabinet (5, 4, 15, 4) modulo 257, volume 7"),
        "{out}"
    );
    assert!(out.contains("margin 5"), "{out}");
    bench.poke(&image(6), LABEL + 3, 2);
    bench.remove(&image(7));
    let out = bench.done("margin c");
    assert!(
        out.contains("18 live, 1 demonstration, 1 absent; 15 are needed"),
        "{out}"
    );
    assert!(out.contains("rack  1    4   5 (6)   -"), "{out}");
}

#[test]
fn images_in_words() {
    let bench = Bench::with_racks_of_four();
    let out = bench.done("inspect c/tray-07.img");
    for words in [
        "length    608 bytes",
        "24 bytes, edition 2",
        "(5, 4, 15, 4): 5 racks of 4 trays",
        "7, rack 1, place 3",
        "32 from byte 24",
        "handed out as live tray 7",
    ] {
        assert!(out.contains(words), "{words} is missing in\n{out}");
    }
    bench.write("alone", &bench.read("c/tray-07.img"));
    bench.done("inspect alone");
    bench.refused(11, "inspect alone --volume 8");
    bench.refused(1, "inspect alone --field 256");
    bench.refused(1, "inspect alone --layout 4,3,8,3");
    bench.poke("alone", LABEL + 5, 3);
    bench.refused(9, "inspect alone");
}

/// A number above 256 is no symbol, in a demonstration image either.
#[test]
fn an_image_with_a_number_above_256_is_malformed() {
    let bench = Bench::with_racks_of_four();
    change(&bench, 3, 31, 257);
    bench.refused(9, "inspect c/tray-03.img");
    bench.poke(&image(3), LABEL + 3, 2);
    bench.refused(9, "inspect c/tray-03.img");
    change(&bench, 3, 31, 256);
    bench.refused(10, "inspect c/tray-03.img");
    bench.done("recover c");
    bench.done("test c");
}

#[test]
fn images_of_one_field_are_malformed_in_the_other() {
    let bench = Bench::new();
    bench.write("data", &data(8));
    bench.done("store 3 1 1 2 --volume 7 data bytes");
    bench.done("store 3 1 1 2 --volume 7 --field 257 data c");
    bench.refused(5, "get c out --field 256");
    bench.refused(5, "get bytes out --field 257");
    let before = bench.snapshot("c");
    bench.write("c/tray-01.img", &bench.read("bytes/tray-01.img"));
    assert!(bench
        .done("recover c")
        .contains("tray  1 is not used: its label is of another cabinet"));
    let label = bench.read("c/tray-01.img")[..LABEL].to_vec();
    let other = bench.read("bytes/tray-01.img")[LABEL..].to_vec();
    bench.write("c/tray-01.img", &[label, other].concat());
    assert!(bench
        .done("recover c")
        .contains("tray  1 is not used: refused (9)"));
    assert!(before == bench.snapshot("c"));
}

/// Layout and volume are the same, and the fields are not.
#[test]
fn work_files_of_one_field_are_foreign_to_the_other() {
    let bench = Bench::new();
    bench.write("data", &data(8));
    for (name, field) in [("bytes", 256), ("c", 257)] {
        bench.done(&format!(
            "store 3 1 1 2 --volume 7 --field {field} data {name}"
        ));
        bench.done(&format!("scrub {name} --budget 3"));
        bench.remove(&format!("{name}/tray-00.img"));
        bench.done(&format!("repair {name} --lost 0 --helpers 1,2 --budget 2"));
    }
    for (here, there) in [("bytes", "c"), ("c", "bytes")] {
        let line = format!("repair {here} --lost 0 --helpers 1,2 --spare {there}/tray-00.spare");
        assert!(bench.fails(65, &line).contains("another repair"));
    }
    for name in ["bytes", "c"] {
        bench.done(&format!("repair {name} --lost 0 --helpers 1,2"));
    }
    for (here, there) in [("bytes", "c"), ("c", "bytes")] {
        let line = format!("scrub {here} --record {there}/scrub.txt");
        assert!(bench.fails(65, &line).contains("--reset"));
    }
    for name in ["bytes", "c"] {
        assert!(bench.done(&format!("scrub {name}")).contains("layer 3"));
    }
}

#[test]
fn a_spare_with_half_a_symbol_is_noticed() {
    let bench = Bench::with_racks_of_four();
    bench.remove(&image(6));
    bench.done(&format!("{REPAIR} --budget 3"));
    let whole = bench.read("c/tray-06.spare");
    for left_out in [1, 2] {
        let cut = &whole[..whole.len() - left_out];
        bench.write("c/tray-06.spare", &checked(cut));
        bench.fails(65, REPAIR);
    }
    bench.write("c/tray-06.spare", &whole);
    bench.done(REPAIR);
}

/// 256 is a symbol, and no byte of a file.
#[test]
fn data_that_are_no_bytes_are_not_written() {
    let bench = Bench::new();
    bench.write("data", &[1]);
    bench.done("store 2 1 1 1 --volume 7 --field 257 data c");
    change(&bench, 0, 0, 256);
    change(&bench, 1, 0, 1);
    bench.done("test c");
    let message = bench.fails(65, "recover c");
    assert!(message.contains("do not have the checksum"), "{message}");
    let message = bench.fails(65, "get c out");
    assert!(message.contains("symbol 0 is 256"), "{message}");
    assert!(!bench.exists("out"));
    bench.done("get c out --length 0");
    assert_eq!(bench.read("out"), b"");
}

#[test]
fn the_field_can_be_given() {
    let bench = Bench::with_racks_of_four();
    bench.done("test c --layout 5,4,15,4 --volume 7");
    bench.done("test c --layout 5,4,15,4 --volume 7 --field 257");
    bench.refused(1, "test c --field 256");
    bench.refused(1, "test c --layout 4,3,8,3");
}

#[test]
fn a_large_cabinet() {
    let bench = Bench::new();
    bench.write("data", &data(32_768));
    bench.done("store 10 4 32 9 --volume 7 --field 257 --exact data c");
    let before = bench.snapshot("c");
    bench.remove(&image(39));
    let out = bench.done("repair c --lost 39 --helpers 0,1,2,3,4,5,6,7,8");
    assert_readable(&out);
    assert!(out.contains("4608 crossed,    0 to come"), "{out}");
    bench.remove(&image(0));
    bench.done("get c back --replace");
    bench.done("recover c");
    assert!(before == bench.snapshot("c"));
    assert_eq!(bench.read("back"), data(32_768));
    bench.write("long", &data(32_769));
    bench.refused(2, "store 10 4 32 9 --volume 7 --field 257 --exact long d");
}
