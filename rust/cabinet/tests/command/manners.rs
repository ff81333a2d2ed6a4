//! What people expect of any command: pipes, nothing written over unasked, quiet, one form of words,
//! and all processors at work with the same files.

use crate::bench::{data, ended, Bench, Ended};
use std::io::Write;
use std::process::Stdio;

/// Runs a line with these bytes on its standard input.
fn piped(bench: &Bench, line: &str, input: &[u8]) -> Ended {
    let mut child = bench
        .command(line)
        .stdin(Stdio::piped())
        .stdout(Stdio::piped())
        .stderr(Stdio::piped())
        .spawn()
        .expect("the command can be run");
    let mut pipe = child.stdin.take().expect("it has an input");
    // A command that refuses does not read it all.
    let _ = pipe.write_all(input);
    drop(pipe);
    let output = child.wait_with_output().expect("it ends");
    Ended {
        status: output.status.code().expect("the command ends by itself"),
        out: String::from_utf8_lossy(&output.stdout).into_owned(),
        err: String::from_utf8_lossy(&output.stderr).into_owned(),
    }
}

/// What comes by a pipe is stored as a file is, byte for byte.
#[test]
fn a_store_from_a_pipe() {
    for length in [0, 1, 128, 300, 70_000, 1_000_000] {
        let bench = Bench::new();
        bench.write("data", &data(length));
        bench.done("store 4 3 8 3 --volume 7 data c");
        let stored = piped(&bench, "store 4 3 8 3 --volume 7 - d", &data(length));
        assert_eq!(stored.status, 0, "{}", stored.err);
        let files = |folder: &str| -> Vec<Vec<u8>> {
            let all = bench.snapshot(folder);
            all.into_iter().map(|(_, bytes)| bytes).collect()
        };
        assert!(files("c") == files("d"), "{length} bytes");
    }
}

#[test]
fn a_store_from_a_pipe_that_is_refused() {
    let bench = Bench::with_cabinet();
    let before = bench.snapshot(".");
    for (line, status) in [
        ("store 4 3 8 3 --volume 7 - c", 74),
        ("store 4 3 8 3 --volume 0 - d", 3),
        ("store 4 3 8 3 --volume 7 --exact - d", 2),
        ("store 4 3 8 30 --volume 7 - d", 1),
    ] {
        let ended = piped(&bench, line, &data(1_000));
        assert_eq!(ended.status, status, "{line}: {}", ended.err);
        assert!(before == bench.snapshot("."), "{line}");
        assert!(!bench.exists("d"), "{line}");
    }
    let replaced = piped(
        &bench,
        "store 4 3 8 3 --volume 7 --replace - c",
        &data(1_000),
    );
    assert_eq!(replaced.status, 0, "{}", replaced.err);
    bench.done("get c back");
    assert!(bench.read("back") == data(1_000));
    assert_eq!(bench.snapshot("c").len(), 13);
}

/// Data go out by a pipe, the words beside them, and nothing of data that are not right.
#[test]
fn a_get_to_a_pipe() {
    let bench = Bench::new();
    bench.write("data", &data(70_000));
    bench.done("store 4 3 8 3 --volume 7 data c");
    let out = |line: &str| {
        let output = bench.command(line).output().expect("it can be run");
        let err = String::from_utf8_lossy(&output.stderr).into_owned();
        (output.status.code(), output.stdout, err)
    };
    let (status, got, words) = out("get c -");
    assert_eq!(status, Some(0), "{words}");
    assert!(got == data(70_000));
    assert!(words.contains("70,000 bytes written to standard output"));
    bench.flip("c/tray-03.img", 900);
    let (status, got, words) = out("get c - --quiet");
    assert_eq!((status, &words[..]), (Some(17), ""));
    assert!(got == data(70_000));
    let (status, got, words) = out("get c - --json");
    assert_eq!(status, Some(17));
    assert!(
        got == data(70_000) && words.starts_with("{\"json\":"),
        "{words}"
    );
    for tray in [0, 1, 2, 4] {
        bench.remove(&format!("c/tray-{tray:02}.img"));
    }
    let (status, got, words) = out("get c -");
    assert_eq!((status, got.len()), (Some(8), 0), "{words}");
    // A pipe through both.
    let line = "$cabinet get c - 2>/dev/null | $cabinet store 3 1 1 2 --volume 1 - d && \
                $cabinet get d - 2>/dev/null | cmp - data";
    bench.write("c/tray-00.img", b"");
    bench.done("store 4 3 8 3 --volume 7 --replace data c");
    let ended = bench.shell(line);
    assert_eq!(ended.status, 0, "{}{}", ended.out, ended.err);
    // A reader that goes away is said.
    let ended =
        bench.shell("{ $cabinet get c - 2>words; echo $? >status; } | head -c 1 >/dev/null");
    assert_eq!(ended.status, 0);
    let status = String::from_utf8_lossy(&bench.read("status"))
        .trim()
        .to_string();
    assert!(["0", "74"].contains(&&status[..]), "{status}");
}

/// No file is written over unasked.
#[test]
fn a_get_does_not_write_over_a_file() {
    let bench = Bench::with_cabinet();
    bench.write("back", b"mine");
    let message = bench.fails(74, "get c back");
    assert!(
        message.contains("back: a file is there already"),
        "{message}"
    );
    assert_eq!(bench.read("back"), b"mine");
    bench.done("get c back --replace");
    assert_eq!(bench.read("back"), data(128));
}

/// Nothing is printed, and what a failure says goes where it always goes.
#[test]
fn quiet_commands_print_nothing() {
    let bench = Bench::with_cabinet();
    for line in [
        "store 4 3 8 3 --volume 7 data d",
        "status c",
        "get c back",
        "test c",
        "scrub c",
        "recover c --erase 3",
        "repair c --lost 1 --helpers 1,2,3",
        "margin c",
        "inspect c/tray-03.img",
        "share c --host 0 --helper 1 sent",
        "read c --tray 1 --layers 0..3 --out part",
        "plan 4 3 8 3",
        "choose --trays 12 --survive 4",
        "fix c",
    ] {
        let out = bench.done(&format!("{line} --quiet"));
        assert_eq!(out, "", "{line}");
    }
    bench.flip("c/tray-03.img", 540);
    let message = bench.fails(65, "test c --quiet");
    assert!(message.contains("bad: 1 layer"), "{message}");
    let out = bench.ends(17, "get c again --quiet --json");
    assert!(out.starts_with("{\"json\":"), "{out}");
}

/// One byte is a byte.
#[test]
fn one_form_of_words() {
    let bench = Bench::new();
    bench.write("data", &data(1));
    let out = bench.done("store 3 1 1 2 --volume 7 data c");
    assert!(
        out.contains("  1 byte stored, 8 fit: 7 zeros added"),
        "{out}"
    );
    let out = bench.done("get c back");
    assert!(out.contains("  1 byte written to back"), "{out}");
    bench.write("data", &data(7));
    let out = bench.done("store 3 1 1 2 --volume 7 data d");
    assert!(
        out.contains("  7 bytes stored, 8 fit: 1 zero added"),
        "{out}"
    );
}

/// A store of fewer trays removes the old cabinet's others, and names what it leaves.
#[test]
fn a_store_of_fewer_trays() {
    let bench = Bench::with_cabinet();
    bench.write("c/tray-07.img", b"no tray");
    let out = bench.done("store 3 1 1 2 --volume 7 --replace data c");
    let words = "removed, trays of the old cabinet: tray-03.img, tray-04.img";
    assert!(out.contains(words), "{out}");
    assert!(
        out.contains("left, no trays of this cabinet: tray-07.img"),
        "{out}"
    );
    assert_eq!(bench.read("c/tray-07.img"), b"no tray");
    assert_eq!(bench.snapshot("c").len(), 5);
    bench.done("test c");
}

/// The same files and the same words for any number of processors.
#[test]
fn any_number_of_processors() {
    let bench = Bench::new();
    for (store, lost, helpers, length) in [
        ("4 3 8 3 --volume 7", 4, "0,2,3", 1_300_000),
        ("5 4 15 4 --volume 7 --field 257", 5, "0,2,3,4", 400_000),
        ("6 3 5 4 1 --volume 7", 4, "0,2,3,4", 90_000),
        ("10 3 24 9 --volume 7", 13, "0,1,2,3,5,6,7,8,9", 900_000),
    ] {
        let mut first = None;
        for jobs in [1, 2, 3, 7] {
            let jobs = format!("--jobs {jobs}");
            bench.write("data", &data(length));
            let mut told = vec![bench.done(&format!("store {store} data c {jobs}"))];
            let stored = bench.snapshot("c");
            let tray = format!("c/tray-{lost:02}.img");
            bench.remove(&tray);
            let repair = format!("repair c --lost {lost} --helpers {helpers} {jobs}");
            told.push(bench.done(&repair));
            assert!(stored == bench.snapshot("c"), "{store} {jobs}: the repair");
            bench.flip("c/tray-02.img", 3_000);
            bench.remove("c/tray-00.img");
            let ended = bench.run(&format!("scrub c {jobs}"));
            assert_eq!(ended.status, 65);
            told.extend([ended.out, ended.err]);
            told.push(bench.run(&format!("test c {jobs}")).out);
            told.push(bench.ends(17, &format!("get c back {jobs} --replace")));
            assert!(
                bench.read("back") == data(length),
                "{store} {jobs}: the data"
            );
            told.push(bench.ends(17, &format!("recover c {jobs}")));
            let last = "c/scrubbed.txt";
            if bench.exists(last) {
                bench.remove(last);
            }
            assert!(
                stored == bench.snapshot("c"),
                "{store} {jobs}: the recovery"
            );
            let all = (stored, told);
            match &first {
                None => first = Some(all),
                Some(first) => assert!(*first == all, "{store} {jobs}: files or words"),
            }
            std::fs::remove_dir_all(bench.path("c")).expect("it can be removed");
        }
    }
    bench.done("store 4 3 8 3 --volume 7 data c");
    bench.fails(64, "test c --jobs 0");
    bench.fails(64, "get c back --jobs some");
    let mut command = bench.command("test c --jobs 1000000");
    assert_eq!(ended(&mut command).status, 0);
}
