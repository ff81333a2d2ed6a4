//! How a cabinet stands: every tray, the margin, the last scrub, open work and the next line.

use crate::bench::{assert_readable, data, Bench, SYMBOLS};
use crate::json::{report, Value};
use crate::xml::assert_well_formed;
use std::fs;

/// A cabinet (4, 3, 8, 3) of 600 stripes in three segments, in the folder `c`.
fn cabinet() -> Bench {
    let bench = Bench::new();
    bench.write("data", &data(76_800));
    bench.done("store 4 3 8 3 --volume 7 data c");
    bench
}

fn image(tray: usize) -> String {
    format!("c/tray-{tray:02}.img")
}

/// The line to type, which is tried: it must do its work.
fn next(bench: &Bench) -> String {
    let value = report(bench, 0, "status c");
    let out = bench.done("status c");
    assert_readable(&out);
    match value.at("next.line") {
        Value::Null => {
            assert!(out.contains(value.at("next.why").text()), "{out}");
            String::new()
        }
        line => {
            assert!(
                out.contains(&format!("  next        {}\n", line.text())),
                "{out}"
            );
            line.text().to_string()
        }
    }
}

fn states(value: &Value) -> Vec<(f64, String)> {
    let trays = value.at("trays").list().iter();
    trays
        .map(|of| (of.at("tray").number(), of.at("state").text().to_string()))
        .filter(|(_, state)| state != "live")
        .collect()
}

#[test]
fn a_new_cabinet_is_scrubbed_and_then_nothing_is_to_do() {
    let bench = cabinet();
    let out = bench.done("status c");
    for words in [
        "  rack  3   9  10  11\n",
        "  12 live; 8 are needed\n",
        "  margin      4: any 4 trays more may be lost\n",
        "  last scrub  none is known\n",
        "  open work   none\n",
    ] {
        assert!(out.contains(words), "{words}{out}");
    }
    assert_eq!(next(&bench), "cabinet scrub c");
    bench.done("scrub c");
    let out = bench.done("status c");
    assert!(
        out.contains(" UTC: sound, 9,600 layers by 4 checks\n"),
        "{out}"
    );
    assert_eq!(next(&bench), "");
}

/// Every way in which a tray can stand, in one cabinet.
#[test]
fn every_standing() {
    let bench = cabinet();
    let old = bench.read(&image(10));
    bench.write("data", &data(76_801)[1..]);
    bench.done("store 4 3 8 3 --volume 7 --replace data c");
    bench.write(&image(10), &old);
    bench.remove(&image(4));
    bench.flip(&image(7), SYMBOLS + 2 * (24 + 4096 + 8) + 5);
    // A reset tray: every header is of a demonstration.
    let mut reset = bench.read(&image(2));
    for segment in 0..3 {
        reset[512 + segment * (24 + 4096 + 8) + 3] = 2;
    }
    bench.write(&image(2), &reset);
    let value = report(&bench, 0, "status c");
    let wanted = [
        (2.0, "demonstration"),
        (4.0, "absent"),
        (7.0, "bad"),
        (10.0, "stale"),
    ];
    let wanted = wanted.map(|(tray, state)| (tray, state.to_string()));
    assert_eq!(states(&value), wanted);
    assert_eq!(value.at("margin").number(), 0.0);
    let out = bench.done("status c");
    assert_readable(&out);
    for words in [
        "  rack  0   0   1   2d\n",
        "  rack  1   3   4-  5\n",
        "  rack  2   6   7!  8\n",
        "  rack  3   9  10~ 11\n",
        "  d demonstration, - absent, ~ stale, ! bad\n",
        "tray 7 is bad: its checksum is wrong in stripes 512-599\n",
        "tray 10 is stale: its label is of generation 1, not 2\n",
        "  8 live, 1 demonstration, 1 absent, 1 stale, 1 bad; 8 are needed\n",
        "  margin      0: no tray more may be lost\n",
    ] {
        assert!(out.contains(words), "{words}{out}");
    }
    assert_eq!(next(&bench), "cabinet fix c");
    bench.ends(17, "fix c");
    assert_eq!(states(&report(&bench, 0, "status c")), []);
    assert_eq!(next(&bench), "");
}

#[test]
fn too_few_trays_and_labels() {
    let bench = cabinet();
    bench.poke(&image(3), 20, b'x');
    let out = bench.done("status c");
    assert!(
        out.contains("tray 3 is bad: its label cannot be read"),
        "{out}"
    );
    (4..9).for_each(|tray| bench.remove(&image(tray)));
    let out = bench.done("status c");
    assert!(
        out.contains("margin      -1: too few live trays by 1"),
        "{out}"
    );
    let why = report(&bench, 0, "status c");
    let why = why.at("next.why").text();
    assert!(
        why.contains("put the files of absent trays back first"),
        "{why}"
    );
    assert_eq!(next(&bench), "cabinet status c");
}

/// A file that goes on after its last segment serves, and is written anew.
#[test]
fn a_file_that_is_too_long() {
    let bench = cabinet();
    let whole = bench.read(&image(3));
    bench.write(&image(3), &[&whole[..], b"x"].concat());
    let out = bench.done("status c");
    assert!(out.contains("tray 3 is bad: its file is too long"), "{out}");
    bench.fails(65, "scrub c");
    let value = report(&bench, 0, "status c");
    let fault = &value.at("scrub.faults").list()[0];
    assert_eq!(fault.at("fault").text(), "too_long");
    assert_eq!(next(&bench), "cabinet fix c");
    bench.ends(17, "fix c");
    assert_eq!(bench.read(&image(3)), whole);
    assert_eq!(next(&bench), "");
}

/// A tray that may be newer than all others is written over only where a person names it.
#[test]
fn a_tray_of_a_newer_store() {
    let bench = cabinet();
    let old: Vec<Vec<u8>> = (0..12).map(|tray| bench.read(&image(tray))).collect();
    let text = bench.read("c/cabinet.txt");
    bench.write("other", &data(76_801)[1..]);
    bench.done("store 4 3 8 3 --volume 7 --replace other c");
    bench.write("c/cabinet.txt", &text);
    (0..12)
        .filter(|tray| *tray != 10)
        .for_each(|tray| bench.write(&image(tray), &old[tray]));
    let value = report(&bench, 0, "status c");
    assert_eq!(states(&value), [(10.0, "stale".to_string())]);
    assert_eq!(next(&bench), "cabinet replace c 10");
    bench.fails(65, "fix c");
    bench.done("replace c 10");
    assert_eq!(bench.read(&image(10)), old[10]);
    assert_eq!(next(&bench), "");
}

/// What a scrub finds that no checksum tells is kept until the tray is written anew.
#[test]
fn what_the_last_scrub_found() {
    let bench = Bench::new();
    bench.write("data", &data(128));
    bench.done("store 4 3 8 3 --volume 7 data c");
    bench.forge(&image(5), SYMBOLS + 2);
    assert_eq!(states(&report(&bench, 0, "status c")), []);
    bench.fails(65, "scrub c");
    let value = report(&bench, 0, "status c");
    assert_eq!(value.at("scrub.still_wrong").numbers(), [5.0]);
    assert_eq!(value.at("broken"), &Value::Flag(true));
    let out = bench.done("status c");
    assert!(out.contains("1 of 16 layers bad, tray 5 wrong\n"), "{out}");
    assert_eq!(next(&bench), "cabinet fix c");
    bench.ends(17, "recover c");
    let out = bench.done("status c");
    let words: Vec<&str> = out.split_whitespace().collect();
    let words = words.join(" ");
    assert!(words.contains("tray 5 wrong, written anew since"), "{out}");
    assert_eq!(next(&bench), "");
}

/// The record is no tray file, and no command needs it.
#[test]
fn the_record_is_harmless() {
    let bench = cabinet();
    bench.done("scrub c");
    let record = bench.read("c/scrubbed.txt");
    for at in (0..record.len()).step_by(7) {
        bench.poke("c/scrubbed.txt", at, record[at] ^ 1);
        let out = bench.done("status c");
        assert!(
            out.contains("last scrub  none is known"),
            "byte {at}: {out}"
        );
        bench.write("c/scrubbed.txt", &record);
    }
    bench.remove("c/scrubbed.txt");
    bench.done("test c");
    bench.write("c/scrubbed.txt", &record);
    // Another cabinet's record says nothing of this one.
    bench.write("data", &data(500));
    bench.done("store 4 3 8 3 --volume 7 --replace data c");
    assert!(!bench.exists("c/scrubbed.txt"));
    bench.write("c/scrubbed.txt", &record);
    assert!(bench.done("status c").contains("none is known"));
    // A scrub counts though no record of it can be kept.
    bench.remove("c/scrubbed.txt");
    fs::create_dir(bench.path("c/scrubbed.txt")).expect("a folder can be made");
    let out = bench.done("scrub c");
    assert!(out.contains("no record of this scrub is kept"), "{out}");
    assert!(out.contains("sound: each of 64 layers"), "{out}");
}

#[test]
fn open_work() {
    let bench = cabinet();
    bench.done("scrub c --budget 1000");
    let out = bench.done("status c");
    assert!(
        out.contains("a scrub: 62 of 600 stripes done (scrub.txt)"),
        "{out}"
    );
    assert_eq!(next(&bench), "cabinet scrub c");
    bench.remove(&image(4));
    bench.done("repair c --lost 4 --budget 2000");
    let out = bench.done("status c");
    let words = "a repair of tray 4: 250 of 600 stripes done (tray-04.spare)";
    assert!(out.contains(words), "{out}");
    assert_eq!(next(&bench), "cabinet fix c");
    bench.poke("c/tray-04.spare", 3, b'x');
    let out = bench.done("status c");
    assert!(out.contains("a repair of tray 4: begins anew"), "{out}");
    bench.write("c/.tray-07.img.store", b"");
    let out = bench.done("status c");
    assert!(
        out.contains("a store: its line, run again, finishes it"),
        "{out}"
    );
}

/// The folder's name as a shell takes it.
#[test]
fn the_line_is_for_a_shell() {
    let bench = cabinet();
    let odd = "it's my $cellar";
    fs::rename(bench.path("c"), bench.path(odd)).expect("it can be renamed");
    let mut command = bench.command("status");
    let out = command.arg(odd).output().expect("it can be run").stdout;
    let out = String::from_utf8(out).expect("text");
    let line = out
        .lines()
        .find_map(|line| line.strip_prefix("  next        cabinet "));
    let line = line.unwrap_or_else(|| panic!("{out}"));
    let ended = bench.shell(&format!("$cabinet {line}"));
    assert_eq!(ended.status, 0, "{line}: {}", ended.err);
    assert!(bench.exists(&format!("{odd}/scrubbed.txt")));
}

#[test]
fn the_picture_is_well_formed() {
    let bench = cabinet();
    bench.remove(&image(4));
    bench.flip(&image(7), SYMBOLS + 5);
    bench.done("status c --svg picture.svg");
    let picture = String::from_utf8(bench.read("picture.svg")).expect("text");
    assert_well_formed(&picture);
    let count = |class: &str| picture.matches(&format!("<rect class=\"{class}\"")).count();
    // One more of each is in the legend.
    assert_eq!((count("live"), count("absent"), count("bad")), (11, 2, 2));
    assert!(picture.contains(">cabinet fix c</text>"), "{picture}");
    bench.fails(64, "status c --svg c/tray-04.img");
    bench.fails(64, "status c --html c/tray-00.img");
    bench.fails(74, "status nowhere");
}

/// A cabinet of the first format has no checksums, and says so.
#[test]
fn the_first_format() {
    let bench = Bench::with_first_format();
    let out = bench.done("status first");
    assert!(out.contains("12 live; 8 are needed"), "{out}");
    bench.remove("first/tray-04.img");
    let out = bench.done("status first");
    assert!(out.contains("next        cabinet fix first\n"), "{out}");
    bench.done("fix first");
    let out = bench.done("status first");
    assert!(out.contains("sound, 48 layers by 4 checks"), "{out}");
}
