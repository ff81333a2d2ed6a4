//! Trays that are too long or cut short, labels that cannot be read, and folders with trays of more
//! than one cabinet: what code and checksums can give is given, and what cannot be told is said.

use crate::bench::{data, Bench, LABEL, SYMBOLS};

fn image(tray: usize) -> String {
    format!("c/tray-{tray:02}.img")
}

/// Bytes after the last segment, in more trays than may be lost: the segments' checksums are right.
#[test]
fn files_that_are_too_long() {
    for stripes in [1, 600] {
        let bench = Bench::new();
        bench.write("data", &data(128 * stripes));
        bench.done("store 4 3 8 3 --volume 7 data c");
        let before = bench.snapshot("c");
        for (tray, more) in [
            (0, 1),
            (1, 7),
            (4, 8),
            (5, 24),
            (8, 100),
            (9, 5000),
            (11, 1),
        ] {
            let bytes = bench.read(&image(tray));
            bench.write(
                &image(tray),
                &[&bytes[..], &vec![tray as u8; more]].concat(),
            );
        }
        let words = "tray 9's file is too long: bytes follow its last segment";
        let out = bench.ends(17, "get c back --replace");
        assert!(out.contains(words), "{out}");
        assert!(bench.read("back") == data(128 * stripes));
        for line in ["test c", "scrub c"] {
            let ended = bench.run(line);
            assert_eq!(ended.status, 65, "{line}: {}", ended.out);
            assert!(ended.out.contains(words), "{line}: {}", ended.out);
        }
        let out = bench.done("margin c");
        let words = "files that are too long: trays 0, 1, 4, 5, 8, 9, 11";
        assert!(out.contains(words), "{out}");
        let message = bench.fails(65, "inspect c/tray-05.img");
        assert!(message.contains("it is too long"), "{message}");
        bench.ends(17, "recover c");
        assert!(before == bench.snapshot("c"));
    }
}

/// A tray that was cut short, with no tray to spare: nothing of it is handed out as not tested.
#[test]
fn a_tray_that_was_cut_short_is_not_read() {
    for length in [SYMBOLS + 16, SYMBOLS + 10, SYMBOLS + 23] {
        let bench = Bench::with_cabinet();
        let bytes = bench.read(&image(3));
        bench.write(&image(3), &bytes[..length.min(bytes.len())]);
        bench.done("read c --tray 5 --layers 0..16");
        for tray in [0, 4, 7, 11] {
            bench.remove(&image(tray));
        }
        let ended = bench.run("read c --tray 3 --layers 0..16 --out part");
        assert!([9, 65].contains(&ended.status), "{}", ended.err);
        assert!(!bench.exists("part"));
    }
}

/// A cabinet (3, 1, 1, 2) of two generations: the trays of both, and the newer's description.
fn two_generations(stripes: usize) -> (Bench, Vec<Vec<u8>>, Vec<Vec<u8>>) {
    let bench = Bench::new();
    bench.write("data", &data(8 * stripes));
    bench.write("other", &data(8 * stripes + 3)[3..]);
    bench.done("store 3 1 1 2 --volume 7 data c");
    let trays = |bench: &Bench| (0..3).map(|tray| bench.read(&image(tray))).collect();
    let old = trays(&bench);
    bench.done("store 3 1 1 2 --volume 7 --replace other c");
    let new = trays(&bench);
    (bench, old, new)
}

/// All labels of the new cabinet are damaged, and a stale one can be read: the segments' checksums
/// tell whose the others are.
#[test]
fn a_stale_label_does_not_outvote_segments() {
    for stripes in [1, 700] {
        let (bench, old, _) = two_generations(stripes);
        let before = bench.snapshot("c");
        bench.write(&image(0), &old[0]);
        bench.flip(&image(1), 100);
        bench.flip(&image(2), 0);
        let out = bench.ends(17, "get c back --replace");
        let words = "tray  0 is not used: its label is of generation 1, not 2";
        assert!(out.contains(words), "{out}");
        assert!(out.contains("tray 2's label cannot be read"), "{out}");
        assert!(bench.read("back") == bench.read("other"));
        bench.ends(17, "recover c");
        assert!(before == bench.snapshot("c"));
    }
}

/// The same with no description of the new one anywhere: it is said, and nothing is written.
#[test]
fn a_cabinet_that_nothing_describes_is_not_written_over() {
    for stripes in [1, 700] {
        let (bench, old, _) = two_generations(stripes);
        bench.write(&image(0), &old[0]);
        bench.flip(&image(1), 100);
        bench.flip(&image(2), 100);
        bench.remove("c/cabinet.txt");
        let before = bench.snapshot("c");
        for line in [
            "get c back --replace",
            "recover c",
            "test c",
            "repair c --lost 1 --helpers 0,2",
        ] {
            let message = bench.fails(65, line);
            assert!(message.contains("cannot be told"), "{line}: {message}");
            assert!(message.contains("trays 1, 2 belong together"), "{message}");
            assert!(before == bench.snapshot("c"), "{line}");
        }
        assert!(!bench.exists("back"));
        // With the stale tray taken out, the new ones are still not described.
        bench.remove(&image(0));
        bench.fails(64, "get c back --replace");
        // Files that are damaged all over are no cabinet: the one that is left is given.
        bench.write(&image(0), &old[0]);
        for tray in [1, 2] {
            let damaged: Vec<u8> = old[tray].iter().map(|byte| byte ^ tray as u8).collect();
            bench.write(&image(tray), &damaged);
        }
        bench.run("get c back --replace");
        assert!(bench.read("back") == bench.read("data"));
    }
}

/// Stale trays are more than the newer ones: where `cabinet.txt` tells of the newer one, it is given
/// as long as it can be, and then nothing is. Nothing newer is written over.
#[test]
fn a_newer_cabinet_is_not_passed_over() {
    let (bench, old, new) = two_generations(1);
    bench.write(&image(0), &old[0]);
    bench.write(&image(1), &old[1]);
    bench.done("get c back --replace");
    assert!(bench.read("back") == bench.read("other"));
    // Nothing tells which one is meant.
    let text = bench.read("c/cabinet.txt");
    bench.remove("c/cabinet.txt");
    let message = bench.fails(65, "get c back --replace");
    assert!(
        message.contains("generation 2, which is newer"),
        "{message}"
    );
    bench.fails(65, "recover c");
    bench.write("c/cabinet.txt", &text);
    bench.done("recover c");
    assert_eq!(bench.read(&image(1)), new[1]);
    // A tray of a newer store elsewhere is not used, and not written over unless it is named.
    for (name, turns) in [("d", 3), ("e", 1)] {
        for turn in 0..turns {
            let replace = if turn == 0 { "" } else { "--replace" };
            bench.done(&format!("store 4 3 8 3 --volume 7 {replace} data {name}"));
        }
    }
    let own = bench.read("e/tray-05.img");
    bench.write("e/tray-05.img", &bench.read("d/tray-05.img"));
    let out = bench.done("get e back --replace");
    assert!(out.contains("tray  5 is not used"), "{out}");
    let message = bench.fails(65, "recover e");
    assert!(message.contains("may be newer"), "{message}");
    bench.done("recover e --erase 5");
    assert_eq!(bench.read("e/tray-05.img"), own);
}

/// One tray of the second format in a cabinet of the first does not take its place.
#[test]
fn a_labelled_tray_among_those_of_the_first_format() {
    let bench = Bench::with_first_format();
    bench.write("data", &data(128));
    bench.done("store 4 3 8 3 --volume 7 data c");
    bench.write("first/tray-03.img", &bench.read(&image(3)));
    let out = bench.done("get first back --replace");
    assert!(out.contains("tray  3 is not used"), "{out}");
    assert!(bench.read("back") == data(300));
}

/// Labels that cannot be read are named by every command that looks.
#[test]
fn labels_that_cannot_be_read_are_named() {
    let bench = Bench::with_cabinet();
    bench.flip(&image(3), 300);
    let zeros = [&[0; LABEL][..], &bench.read(&image(6))[LABEL..]].concat();
    bench.write(&image(6), &zeros);
    let out = bench.done("margin c");
    assert!(
        out.contains("labels that cannot be read: trays 3, 6"),
        "{out}"
    );
    for tray in [3, 6] {
        let ended = bench.run(&format!("inspect c/tray-{tray:02}.img"));
        assert_eq!(ended.status, 65, "{}", ended.out);
        let words = format!("handed out as live tray {tray}");
        assert!(ended.out.contains(&words), "{}", ended.out);
        assert!(
            ended.err.contains("its label cannot be read"),
            "{}",
            ended.err
        );
    }
}

/// More trays than may be lost have a wrong checksum, and every stripe has k right ones: the
/// checksums, or that of all data, tell which.
#[test]
fn stripes_with_just_as_many_right_trays_as_they_need() {
    let bench = Bench::new();
    bench.write("data", &data(1280));
    bench.done("store 4 3 8 3 --volume 7 data c");
    let before = bench.snapshot("c");
    let place = |stripe: usize, layer: usize| SYMBOLS + layer * 10 + stripe;
    // Four wrong trays in stripe 2, and another four in stripe 7.
    for (stripe, trays) in [(2, [0, 1, 4, 8]), (7, [1, 4, 8, 11])] {
        trays
            .iter()
            .for_each(|tray| bench.flip(&image(*tray), place(stripe, 5)));
    }
    let out = bench.ends(17, "get c back --replace");
    assert!(
        out.contains("tray 11 holds wrong symbols in stripe 7"),
        "{out}"
    );
    assert!(
        out.contains("tray 0 holds wrong symbols in stripe 2"),
        "{out}"
    );
    assert!(bench.read("back") == data(1280));
    // The checksums alone of six trays are wrong: their symbols fit, and are those of the data.
    let bench = Bench::with_cabinet();
    for tray in [0, 1, 4, 8, 9, 11] {
        let last = bench.read(&image(tray)).len() - 1;
        bench.flip(&image(tray), last);
    }
    let out = bench.ends(17, "get c back --replace");
    assert!(
        out.contains("tray 9 has a wrong checksum; its symbols are right"),
        "{out}"
    );
    assert!(bench.read("back") == data(128));
    bench.ends(17, "recover c");
    bench.done("test c");
    drop(before);
}

/// A tray is erased in some stripes only where a person insists; the rest of it still serves.
#[test]
fn a_tray_is_erased_in_some_stripes() {
    let bench = Bench::with_first_format();
    let before = bench.snapshot("first");
    let image = |tray: usize| format!("first/tray-{tray:02}.img");
    // Four wrong trays in stripe 0, four others in stripe 2: no four trays are wrong in both.
    let wrong = [(0, [0, 1, 2, 3]), (2, [4, 5, 6, 7])];
    for (stripe, trays) in wrong {
        trays
            .iter()
            .for_each(|tray| bench.flip(&image(*tray), stripe * 40 + 24 + 3));
    }
    bench.fails(8, "recover first");
    let line = "recover first --erase 0:0,1:0,2:0,3:0,4:2,5:2,6:2,7:2-2";
    let message = bench.fails(64, line);
    assert!(message.contains("only with --insist"), "{message}");
    let out = bench.ends(
        16,
        &format!("get {} --insist back", &line["recover ".len()..]),
    );
    assert!(out.contains("not tested: no tray to spare"), "{out}");
    assert!(bench.read("back") == data(300));
    let out = bench.ends(16, &format!("{line} --insist"));
    assert!(
        out.contains("brought back: trays 0, 1, 2, 3, 4, 5, 6, 7"),
        "{out}"
    );
    assert!(before == bench.snapshot("first"));
    bench.fails(64, "recover first --erase 0:3 --insist");
    bench.fails(64, "recover first --erase 0:x --insist");
    bench.fails(64, "recover first --erase 0:2-1 --insist");
}
