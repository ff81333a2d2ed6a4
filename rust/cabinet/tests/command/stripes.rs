//! Cabinets of several stripes: every command over all of them.

use crate::bench::{assert_readable, data, Bench, LABEL, SYMBOLS};

const REPAIR: &str = "repair c --lost 4 --helpers 0,2,3";

/// Cabinets of either field, with E = 0 and 1: how they are stored, bytes of a stripe's data, bytes
/// of a stripe's symbols in a tray, and the repair of tray 5.
const CABINETS: [(&str, usize, usize, &str); 4] = [
    ("4 3 8 3", 128, 16, "0,2,3"),
    ("5 4 15 4 --field 257", 480, 64, "0,2,3,4"),
    ("6 3 5 4 1", 320, 64, "0,2,3,5"),
    ("6 4 7 4 1 --field 257", 448, 128, "0,2,3,5"),
];

/// A cabinet (4, 3, 8, 3) of three stripes, volumes 7 to 9, in the folder `c`.
fn cabinet() -> Bench {
    let bench = Bench::new();
    bench.write("data", &data(300));
    bench.done("store 4 3 8 3 --volume 7 data c");
    bench
}

fn image(tray: usize) -> String {
    format!("c/tray-{tray:02}.img")
}

/// Where a symbol lies in a tray of three stripes.
fn place(stripe: usize, layer: usize) -> usize {
    SYMBOLS + layer * 3 + stripe
}

/// Changes a symbol of a tray in a stripe; its checksum stays as it was.
fn damage(bench: &Bench, tray: usize, stripe: usize, layer: usize) {
    bench.flip(&image(tray), place(stripe, layer));
}

#[test]
fn data_come_back_exactly_as_long_as_they_were() {
    for (layout, room, size, _) in CABINETS {
        let bench = Bench::new();
        for length in [0, 1, room - 1, room, room + 1, 2 * room, 3 * room + 5] {
            let stripes = length.div_ceil(room).max(1);
            bench.write("data", &data(length));
            bench.done(&format!("store {layout} --volume 7 --replace data c"));
            let text = String::from_utf8(bench.read("c/cabinet.txt")).expect("text");
            let lines = format!("\nlength {length}\n");
            assert!(text.contains(&lines), "{text}");
            assert!(text.contains(&format!("\nstripes {stripes}\n")), "{text}");
            let tray = bench.read(&image(5));
            assert_eq!(tray.len(), LABEL + 24 + stripes * size + 8);
            bench.done("test c");
            bench.done("get c back --replace");
            assert_eq!(bench.read("back"), data(length), "{layout}, {length}");
            bench.remove(&image(0));
            bench.done("get c back --erase 5 --replace");
            assert_eq!(bench.read("back"), data(length), "{layout}, {length}");
        }
    }
}

#[test]
fn a_tray_comes_back_in_every_stripe() {
    for (layout, room, _, helpers) in CABINETS {
        let bench = Bench::new();
        bench.write("data", &data(4 * room - 7));
        bench.done(&format!("store {layout} --volume 7 data c"));
        let before = bench.snapshot("c");
        bench.remove(&image(5));
        let out = bench.done(&format!("repair c --lost 5 --helpers {helpers}"));
        assert_readable(&out);
        assert!(out.contains("tray 5 is whole; all trays together"), "{out}");
        assert!(before == bench.snapshot("c"), "{layout}");
        bench.remove(&image(5));
        bench.remove(&image(1));
        let out = bench.done("recover c");
        assert_readable(&out);
        assert!(before == bench.snapshot("c"), "{layout}");
    }
}

#[test]
fn a_repair_can_be_cut_anywhere() {
    let bench = cabinet();
    let before = bench.snapshot("c");
    for cut in 0..24 {
        bench.remove(&image(4));
        let out = bench.done(&format!("{REPAIR} --budget {cut}"));
        assert_readable(&out);
        assert!(out.contains(&format!("{} of 3 stripes", cut / 8)), "{out}");
        let crossed = format!("{:>2} crossed, {:>2} to come", 3 * cut, 72 - 3 * cut);
        assert!(out.contains(&crossed), "{out}");
        assert!(bench.exists("c/tray-04.spare") && !bench.exists(&image(4)));
        let out = bench.done(REPAIR);
        assert!(out.contains("72 crossed,  0 to come"), "{out}");
        assert!(before == bench.snapshot("c"), "cut at {cut}");
    }
    bench.remove(&image(4));
    for _ in 0..24 {
        bench.done(&format!("{REPAIR} --budget 0"));
        bench.done(&format!("{REPAIR} --budget 1"));
    }
    assert!(before == bench.snapshot("c"));
}

#[test]
fn a_repair_goes_on_only_from_its_own_trays() {
    let bench = cabinet();
    let before = bench.snapshot("c");
    bench.remove(&image(4));
    bench.done(&format!("{REPAIR} --budget 11"));
    bench.forge(&image(0), place(1, 3));
    let message = bench.fails(65, REPAIR);
    assert!(message.contains("stripe 1: c/tray-04.spare"), "{message}");
    bench.forge(&image(0), place(1, 3));
    // A stripe that is whole was tested with the trays as they were.
    bench.forge(&image(0), place(0, 3));
    bench.done(&format!("{REPAIR} --budget 1"));
    bench.forge(&image(0), place(0, 3));
    bench.done(&format!("{REPAIR} --budget 0"));
    bench.fails(65, &format!("{REPAIR} --first 13"));
    let message = bench.fails(65, &format!("{REPAIR} --first 7"));
    assert!(message.contains("the groups below 8"), "{message}");
    bench.refused(7, &format!("{REPAIR} --first 25"));
    bench.done(&format!("{REPAIR} --first 9 --budget 1"));
    bench.done(&format!("{REPAIR} --first 12"));
    assert!(before == bench.snapshot("c"));
}

/// A repair of a tray of several segments: its work file is looked at again.
#[test]
fn a_checkpoint_without_its_work_file_is_noticed() {
    let bench = Bench::new();
    bench.write("data", &data(40_000));
    bench.done("store 4 3 8 3 --volume 7 data c");
    let before = bench.snapshot("c");
    let begin = || {
        bench.remove(&image(4));
        bench.done(&format!("{REPAIR} --budget 2100"));
        bench.read("c/.tray-04.img.repair")
    };
    let written = begin();
    assert_eq!(written.len(), LABEL + 24 + 4096 + 8);
    bench.write("c/.tray-04.img.repair", &written[..written.len() - 1]);
    assert!(bench.done(REPAIR).contains("begins anew"));
    assert!(before == bench.snapshot("c"));
    begin();
    bench.remove("c/.tray-04.img.repair");
    assert!(bench.done(REPAIR).contains("begins anew"));
    assert!(before == bench.snapshot("c"));
    // What a cut command wrote after its last checkpoint is written again.
    begin();
    bench.write(
        "c/.tray-04.img.repair",
        &[&written[..], b"half a segment"].concat(),
    );
    assert!(!bench.done(REPAIR).contains("begins anew"));
    assert!(before == bench.snapshot("c"));
}

#[test]
fn several_trays_come_back() {
    let bench = Bench::new();
    bench.write("data", &data(250));
    bench.done("store 4 3 6 3 --volume 7 data c");
    let before = bench.snapshot("c");
    for cut in [0, 5, 8, 17, 23] {
        [3, 5].iter().for_each(|tray| bench.remove(&image(*tray)));
        bench.done(&format!(
            "repair c --lost 3,5 --helpers 0,2,3 --budget {cut}"
        ));
        let out = bench.done("repair c --lost 3,5 --helpers 0,2,3");
        assert!(out.contains("144 crossed,   0 to come"), "{out}");
        assert!(before == bench.snapshot("c"), "cut at {cut}");
    }
}

#[test]
fn shares_of_all_stripes_come_from_files() {
    let bench = cabinet();
    let before = bench.read(&image(4));
    let mut line = REPAIR.to_string();
    for rack in [0, 2, 3] {
        let out = bench.done(&format!("share c --host 1 --helper {rack} share-{rack}"));
        assert!(out.contains("sends 24 symbols to rack 1, 144 are"), "{out}");
        line += &format!(" --share share-{rack}");
        (rack * 3..rack * 3 + 3).for_each(|tray| bench.remove(&image(tray)));
    }
    bench.remove(&image(4));
    let message = bench.refused(2, &line.replace("share-2", "c/cabinet.txt"));
    assert!(message.contains("bytes, a share has 24"), "{message}");
    bench.done(&format!("{line} --budget 12"));
    bench.ends(16, &line);
    assert_eq!(bench.read(&image(4)), before);
}

#[test]
fn layers_are_read_while_a_later_stripe_is_repaired() {
    let bench = cabinet();
    let tray = bench.read(&image(4));
    bench.remove(&image(4));
    bench.done(&format!("{REPAIR} --budget 12"));
    let line = "read c --tray 4 --lost 4 --layers";
    for (stripe, layers) in [(0, "0..16"), (1, "0..8"), (1, "3..6")] {
        let (first, end) = layers.split_once("..").expect("two numbers");
        let [first, end]: [usize; 2] = [first, end].map(|word| word.parse().expect("a number"));
        let out = bench.done(&format!("{line} {layers} --stripe {stripe} --out out"));
        assert!(out.contains("tested: they fit"), "{out}");
        let wanted: Vec<u8> = (first..end)
            .map(|layer| tray[place(stripe, layer)])
            .collect();
        assert_eq!(bench.read("out"), wanted);
    }
    bench.refused(13, &format!("{line} 0..9 --stripe 1"));
    bench.refused(13, &format!("{line} 0..1 --stripe 2"));
    bench.done("read c --tray 5 --layers 0..16 --stripe 2 --out out");
    let other = bench.read(&image(5));
    let wanted: Vec<u8> = (0..16).map(|layer| other[place(2, layer)]).collect();
    assert_eq!(bench.read("out"), wanted);
    bench.fails(64, "read c --tray 5 --layers 0..16 --stripe 3");
}

/// A card is right for its group in every stripe.
#[test]
fn stripes_are_repaired_by_cards() {
    let bench = cabinet();
    let before = bench.snapshot("c");
    let mut cards = Vec::new();
    for group in 0..8 {
        let place = "4 3 8 3 --lost 4 --helpers 0,2,3";
        bench.done(&format!("card print {place} --group {group} card-{group}"));
        cards.push(format!("--card card-{group}"));
    }
    bench.remove(&image(4));
    let out = bench.done(&format!("{REPAIR} {}", cards.join(" ")));
    assert!(out.contains("72 crossed,  0 to come"), "{out}");
    assert!(before == bench.snapshot("c"));
    bench.remove(&image(4));
    bench.done(&format!("{REPAIR} --budget 9"));
    bench.refused(15, &format!("{REPAIR} --card card-2"));
    // From group 1 on there is no card past the stripe's last group.
    bench.refused(
        3,
        &format!("{REPAIR} {} --card card-0", cards[1..].join(" ")),
    );
    let out = bench.done(&format!("{REPAIR} {}", cards[1..].join(" ")));
    assert!(out.contains("2 of 3 stripes"), "{out}");
    bench.done(REPAIR);
    assert!(before == bench.snapshot("c"));
}

#[test]
fn a_scrub_can_be_cut_anywhere() {
    let bench = cabinet();
    damage(&bench, 6, 1, 11);
    damage(&bench, 6, 1, 12);
    damage(&bench, 2, 2, 3);
    let before = bench.snapshot("c");
    let expected = "bad: 3 layers of 48 broken, layer 11 of stripe 1 is the first";
    for cut in 0..48 {
        let out = bench.done(&format!("scrub c --budget {cut}"));
        assert_readable(&out);
        assert!(out.contains(&format!("{} of 3 stripes", cut / 16)), "{out}");
        bench.write("c/.scrub.txt.new", b"half a checkpoint");
        let ended = bench.run("scrub c");
        assert_readable(&ended.out);
        assert_eq!(ended.status, 65, "cut at {cut}");
        assert!(ended.err.contains(expected), "cut at {cut}: {}", ended.err);
        assert!(ended.out.contains("bad stripes: 1-2\n"), "{}", ended.out);
        assert!(ended.out.contains("     0 .##\n"), "{}", ended.out);
        assert!(before == bench.snapshot("c"), "cut at {cut}");
    }
    for _ in 0..47 {
        bench.done("scrub c --budget 0");
        bench.done("scrub c --budget 1");
    }
    assert!(bench.fails(65, "scrub c --budget 1").contains(expected));
}

#[test]
fn bad_stripes_are_named() {
    let bench = cabinet();
    bench.done("scrub c --svg picture.svg");
    let picture = String::from_utf8(bench.read("picture.svg")).expect("text");
    assert!(picture.contains(">Stripes of cabinet (4, 3, 8, 3)<"));
    assert!(picture.contains(">volume 7: 3 stripes, 300 bytes; "));
    assert_eq!(picture.matches("class=\"sound\"").count(), 1 + 3);
    damage(&bench, 6, 2, 5);
    let message = bench.fails(65, "test c");
    let words = "bad: 1 layer of 48 broken, layer 5 of stripe 2 is the first";
    assert!(message.contains(words), "{message}");
    // Three trays that were written wrong: no code tells which they are.
    damage(&bench, 6, 2, 5);
    [6, 7, 8]
        .iter()
        .for_each(|tray| bench.forge(&image(*tray), place(2, 5)));
    let message = bench.refused(8, "recover c");
    assert!(message.contains("stripe 2: "), "{message}");
    let message = bench.refused(8, "get c out");
    assert!(message.contains("stripe 2: "), "{message}");
    assert!(!bench.exists("out"));
    bench.remove(&image(4));
    let message = bench.fails(65, REPAIR);
    assert!(
        message.contains("stripe 2: tray 4 and the others do not fit"),
        "{message}"
    );
    assert!(!bench.exists(&image(4)));
}

/// The map and the picture have no more than 4,096 cells.
#[test]
fn many_stripes() {
    let bench = Bench::new();
    bench.write("data", &data(10_000));
    bench.done("store 2 1 1 1 --volume 7 data c");
    bench.done("test c");
    bench.done("get c back --replace");
    assert_eq!(bench.read("back"), data(10_000));
    for stripe in [5000, 5001, 9999] {
        let at = SYMBOLS + stripe + stripe / 4096 * 32;
        bench.flip(&image(1), at);
    }
    bench.done("scrub c --budget 9000");
    let ended = bench.run("scrub c --svg picture.svg");
    assert_readable(&ended.out);
    assert!(ended
        .err
        .contains("bad: 3 layers of 10,000 broken, layer 0 of stripe 5000"));
    let words = "bad stripes are among: 4998-5003, 9999\n";
    assert!(ended.out.contains(words), "{}", ended.out);
}

/// A cabinet (4, 3, 8, 3) of 600 stripes in three segments.
fn segments() -> Bench {
    let bench = Bench::new();
    bench.write("data", &data(76_800));
    bench.done("store 4 3 8 3 --volume 7 data c");
    bench
}

/// Where the header of a segment begins.
fn header(segment: usize) -> usize {
    LABEL + segment * (24 + 4096 + 8)
}

/// More trays than may be lost are damaged, though in no segment.
#[test]
fn trays_serve_where_they_are_live() {
    let bench = segments();
    let before = bench.snapshot("c");
    for (tray, segment) in [
        (0, 0),
        (1, 0),
        (2, 1),
        (3, 1),
        (5, 2),
        (7, 2),
        (8, 2),
        (11, 2),
    ] {
        bench.poke(&image(tray), header(segment) + 3, 2);
    }
    let out = bench.done("margin c");
    assert!(
        out.contains("4 live, 8 demonstration, 0 absent; 8 are needed"),
        "{out}"
    );
    assert!(
        out.contains("margin 0 in stripes 512-599, the first with the least: no tray"),
        "{out}"
    );
    bench.done("get c back --replace");
    assert!(bench.read("back") == data(76_800));
    let out = bench.done("recover c");
    assert!(
        out.contains("tray 11 is not used in stripes 512-599: refused (10)"),
        "{out}"
    );
    assert!(before == bench.snapshot("c"));
    for tray in [5, 7, 8, 10, 11] {
        bench.poke(&image(tray), header(2) + 3, 2);
    }
    assert!(bench.refused(5, "get c out").contains("stripe 512: "));
    assert!(bench.refused(5, "recover c").contains("stripe 512: "));
    assert!(bench
        .done("margin c")
        .contains("margin -1 in stripes 512-599"));
    assert!(!bench.exists("out"));
}

#[test]
fn a_segment_in_a_wrong_place_is_refused() {
    let bench = segments();
    let before = bench.snapshot("c");
    let tray = bench.read(&image(7));
    let [zero, one, two] = [0, 1, 2].map(header);
    let swapped = [
        &tray[..zero],
        &tray[one..two],
        &tray[zero..one],
        &tray[two..],
    ]
    .concat();
    bench.write(&image(7), &swapped);
    let out = bench.ends(16, "test c");
    let words = "tray  7 is not used in stripes 0-255: refused (11)";
    assert!(out.contains(words), "{out}");
    bench.refused(11, "inspect c/tray-07.img");
    bench.write("alone", &swapped);
    bench.refused(11, "inspect alone");
    bench.done("get c back --replace");
    assert!(bench.read("back") == data(76_800));
    bench.done("recover c");
    assert!(before == bench.snapshot("c"));
    // The segments of another tray from one on.
    let other = bench.read(&image(8));
    bench.write(&image(7), &[&tray[..one], &other[one..]].concat());
    let out = bench.ends(16, "test c");
    let words = "tray  7 is not used in stripes 256-511: the file holds tray 8";
    assert!(out.contains(words), "{out}");
    assert!(bench
        .fails(65, "inspect c/tray-07.img")
        .contains("stripe 256"));
}

#[test]
fn demonstration_segments_are_never_handed_out() {
    let bench = segments();
    bench.poke(&image(3), header(2) + 3, 2);
    let words = "stripe 512: c/tray-03.img";
    assert!(bench.refused(10, "inspect c/tray-03.img").contains(words));
    bench.refused(10, "read c --tray 3 --layers 0..0 --stripe 512");
    bench.done("read c --tray 3 --layers 0..1 --stripe 511");
    let message = bench.refused(10, "share c --host 0 --helper 1 out");
    assert!(message.contains("stripe 512: "), "{message}");
    let message = bench.refused(10, "repair c --lost 4 --helpers 0,2,3");
    assert!(message.contains(words), "{message}");
    bench.done("get c back --replace");
    assert!(bench.read("back") == data(76_800));
}

#[test]
fn files_cut_short_or_too_long() {
    let bench = segments();
    let before = bench.snapshot("c");
    let tray = bench.read(&image(7));
    for length in [
        0,
        1,
        511,
        512,
        530,
        header(1),
        header(1) + 23,
        header(2) + 39,
    ] {
        bench.write(&image(7), &tray[..length]);
        let out = bench.ends(16, "test c");
        assert!(
            out.contains("tray  7 is not used in stripes"),
            "{length}: {out}"
        );
        let ended = bench.run("recover c");
        assert!([0, 17].contains(&ended.status), "{length}: {}", ended.err);
        assert!(before == bench.snapshot("c"), "{length}");
    }
    // Cut within the symbols: what is left is right, and the checksum is missing.
    for length in [header(1) - 1, header(2) + 24 + 700, tray.len() - 1] {
        bench.write(&image(7), &tray[..length]);
        bench.fails(65, "test c");
        bench.ends(17, "recover c");
        assert!(before == bench.snapshot("c"), "{length}");
    }
    bench.write(&image(7), &[&tray[..], b"!"].concat());
    let message = bench.fails(65, "test c");
    assert!(message.contains("bad: tray 7"), "{message}");
    let out = bench.ends(17, "recover c");
    assert!(out.contains("tray 7's file is too long"), "{out}");
    assert!(before == bench.snapshot("c"));
}

/// Some trays are of another cabinet: the one that has trays enough is there, else the one with more.
#[test]
fn a_folder_of_another_cabinets_trays() {
    let bench = cabinet();
    for (store, trays, needed) in [
        ("4 3 8 3 --volume 8", 12, 8),
        ("4 3 7 3 --volume 7", 12, 7),
        ("5 3 4 4 --volume 7", 15, 4),
        ("3 1 1 2 --volume 7", 3, 1),
        ("4 1 2 3 --field 257 --volume 7", 4, 2),
    ] {
        bench.done(&format!("store {store} data other"));
        let taken = trays.min(4) - 1;
        for tray in 0..taken {
            bench.write(
                &format!("other/tray-{tray:02}.img"),
                &bench.read(&image(tray)),
            );
        }
        bench.write("other/cabinet.txt", &bench.read("c/cabinet.txt"));
        let out = bench.run("margin other").out;
        match trays - taken >= needed {
            true => assert!(out.contains("its label is of another cabinet"), "{out}"),
            false => assert!(out.contains("Cabinet (4, 3, 8, 3), volume 7"), "{out}"),
        }
        std::fs::remove_dir_all(bench.path("other")).expect("it can be removed");
    }
}

#[test]
fn volumes_end() {
    let bench = Bench::new();
    bench.write("data", &data(76_800));
    let message = bench.fails(64, "store 4 3 8 3 --volume 4294967294 data c");
    assert!(message.contains("volumes end at 4294967295"), "{message}");
    assert!(!bench.exists("c"));
    bench.done("store 4 3 8 3 --volume 4294967293 data c");
    bench.done("get c back --replace");
    assert!(bench.read("back") == data(76_800));
    bench.refused(3, "store 4 3 8 3 --volume 0 data d");
    assert!(!bench.exists("d"));
}

#[test]
fn inspecting_several_stripes() {
    let bench = cabinet();
    let out = bench.done("inspect c/tray-07.img");
    assert!(out.contains("length    592 bytes"), "{out}");
    assert!(
        out.contains("handed out as live tray 7, 3 stripes"),
        "{out}"
    );
    bench.write("alone", &bench.read(&image(7)));
    assert!(bench.done("inspect alone").contains("3 stripes"));
    bench.refused(11, "inspect alone --volume 8");
}

/// In stripe 1 a share is wrong, in the others none is.
#[test]
fn a_stale_rack_is_named() {
    let bench = Bench::new();
    bench.write("data", &data(900));
    bench.done("store 6 3 5 4 1 --volume 7 data c");
    let (before, tray) = (bench.snapshot("c"), bench.read(&image(4)));
    bench.forge(&image(10), place(1, 6));
    bench.remove(&image(4));
    let out = bench.ends(17, "repair c --lost 4 --helpers 0,2,3,5");
    assert_readable(&out);
    for words in [
        "4 racks send shares, 384 symbols in all",
        "rack 3 is stale in 1 of 3 stripes: its share is wrong there",
        "all trays but those of rack 3 are sound together",
    ] {
        assert!(out.contains(words), "{words} is missing in\n{out}");
    }
    assert_eq!(bench.read(&image(4)), tray);
    bench.ends(17, "recover c");
    assert!(before == bench.snapshot("c"));
    // Two wrong shares in stripe 2.
    bench.forge(&image(10), place(2, 6));
    bench.forge(&image(0), place(2, 6));
    let message = bench.refused(14, "repair c --lost 4 --helpers 0,2,3,5");
    assert!(message.contains("stripe 2: "), "{message}");
}

/// Layout, volumes and stripes are the same, and the data are not.
#[test]
fn what_was_cut_is_not_gone_on_with_in_another_cabinet() {
    let bench = cabinet();
    bench.write("other", &data(301)[1..]);
    let replace = "store 4 3 8 3 --volume 7 --replace other c";
    for cut in [0, 5, 8, 9, 16] {
        bench.done("store 4 3 8 3 --volume 7 --replace data c");
        bench.done(&format!("scrub c --budget {cut}"));
        bench.done(&format!("scrub c --budget {cut} --record record"));
        bench.done(&format!("{REPAIR} --budget {cut}"));
        bench.done(&format!("{REPAIR} --budget {cut} --spare spare"));
        let work = bench.read("c/.tray-04.img.repair");
        bench.write("c/.tray-04.spare.new", b"half a checkpoint");
        bench.done(replace);
        let after = bench.snapshot("c");
        assert_eq!(after.len(), 13, "what was cut is forgotten");
        let message = bench.fails(65, "scrub c --record record");
        assert!(message.contains("--reset"), "{message}");
        bench.done("scrub c --budget 0");
        bench.done("scrub c");
        // Even with the images of the old cabinet that were written.
        bench.write("c/.tray-04.img.repair", &work);
        bench.fails(65, &format!("{REPAIR} --spare spare"));
        bench.remove("spare");
        bench.remove("record");
        bench.done(REPAIR);
        assert!(after == bench.snapshot("c"));
    }
}

#[test]
fn a_store_that_was_cut_is_done_again() {
    let bench = cabinet();
    // Cut after some files got their names, and with none.
    let text = bench.read("c/cabinet.txt");
    for named in [6, 0] {
        bench.write("c/.cabinet.txt.store", &text);
        let _ = std::fs::remove_file(bench.path("c/cabinet.txt"));
        for tray in named..12 {
            let work = bench.path(&format!("c/.tray-{tray:02}.img.store"));
            std::fs::rename(bench.path(&image(tray)), work).expect("it can be renamed");
        }
        match named {
            0 => drop(bench.fails(64, "test c")),
            _ => {
                bench.fails(74, "store 4 3 8 3 --volume 8 data c");
                bench.done("test c");
                bench.done("get c back --replace");
                assert_eq!(bench.read("back"), data(300));
            }
        }
        bench.done("store 4 3 8 3 --volume 7 data c");
        assert_eq!(bench.snapshot("c").len(), 13);
        bench.done("test c");
    }
    // A cabinet that is whole is not one that was cut.
    bench.write("c/.cabinet.txt.store", &text);
    assert!(bench
        .fails(74, "store 4 3 8 3 --volume 7 data c")
        .contains("--replace"));
}

/// A writer puts a store that was cut to its end.
#[test]
fn what_a_cut_store_left_gets_its_names() {
    let bench = cabinet();
    let before = bench.snapshot("c");
    for tray in 6..12 {
        let work = bench.path(&format!("c/.tray-{tray:02}.img.store"));
        std::fs::rename(bench.path(&image(tray)), work).expect("it can be renamed");
    }
    bench.remove(&image(4));
    bench.done(REPAIR);
    assert!(before == bench.snapshot("c"));
}
