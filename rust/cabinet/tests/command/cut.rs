//! Commands ended by force at any point: every tray file is as it was or whole, and the same line
//! run again finishes.

use crate::bench::{data, Bench, SYMBOLS};
use std::process::Stdio;
use std::thread;
use std::time::{Duration, Instant};

/// Cuts of each command.
const CUTS: u32 = 6;

/// Enough for several checkpoints.
const LENGTH: usize = 16_000_000;

const STORE: &str = "store 10 3 24 9 --volume 7 data c";
const REPAIR: &str = "repair c --lost 13 --helpers 0,1,2,3,5,6,7,8,9";

type Files = Vec<(String, Vec<u8>)>;

/// Numbers without a pattern.
struct Dice(u64);

impl Dice {
    /// A part of a time.
    fn part(&mut self, of: Duration) -> Duration {
        self.0 ^= self.0 << 13;
        self.0 ^= self.0 >> 7;
        self.0 ^= self.0 << 17;
        of.mul_f64((self.0 % 1000) as f64 / 1000.0)
    }
}

/// Runs a line and ends it by SIGKILL after a time, if it is still running then.
fn cut(bench: &Bench, line: &str, after: Duration) {
    let mut child = bench
        .command(line)
        .stdout(Stdio::null())
        .stderr(Stdio::null())
        .spawn()
        .expect("the command can be run");
    thread::sleep(after);
    child.kill().expect("it can be ended");
    child.wait().expect("it has ended");
}

/// Runs a line and ends it as soon as a file is there; whether it was there then.
fn cut_at(bench: &Bench, line: &str, file: &str) -> bool {
    let mut child = bench
        .command(line)
        .stdout(Stdio::null())
        .stderr(Stdio::null())
        .spawn()
        .expect("the command can be run");
    while !bench.exists(file) && child.try_wait().expect("it can be waited for").is_none() {
        thread::sleep(Duration::from_micros(100));
    }
    child.kill().expect("it can be ended");
    child.wait().expect("it has ended");
    bench.exists(file)
}

/// The files of the cabinet that people see; those under work names are hidden.
fn files(bench: &Bench) -> Files {
    let mut files = bench.snapshot("c");
    files.retain(|(name, _)| !name.contains("/."));
    files
}

/// Every tray file and description must be as it was before or as it is after, and none may be
/// missing that is there before and after.
fn assert_whole(bench: &Bench, before: &Files, after: &Files, trial: &str) {
    let now = files(bench);
    for (name, _) in before {
        let has = |files: &Files| files.iter().any(|(other, _)| other == name);
        assert!(has(&now) || !has(after), "{trial}: {name} is missing");
    }
    for (name, bytes) in now {
        let is = |(other, held): &(String, Vec<u8>)| *other == name && *held == bytes;
        let kept = name.ends_with(".spare") || name.ends_with("scrub.txt");
        let kept = kept || name.ends_with("recover.txt");
        let whole = before.iter().any(is) || after.iter().any(is);
        assert!(kept || whole, "{trial}: {name}");
    }
}

/// How long a line takes that is not cut.
fn time(bench: &Bench, line: &str) -> Duration {
    let start = Instant::now();
    bench.run(line);
    start.elapsed()
}

/// Cuts a line at random, so many times: `prepare` brings the files into the state before.
fn cut_often(bench: &Bench, line: &str, cuts: u32, status: i32, prepare: impl Fn(&Bench)) {
    prepare(bench);
    let before = files(bench);
    let mut longest = time(bench, line);
    let after = files(bench);
    let mut dice = Dice(line.len() as u64);
    for trial in 0..cuts {
        let trial = format!("{line}, cut {trial}");
        prepare(bench);
        if !line.starts_with("store") {
            assert!(files(bench) == before, "{trial}: the state before");
        }
        cut(bench, line, dice.part(longest));
        if !line.starts_with("store") {
            assert_whole(bench, &before, &after, &trial);
        }
        if line == STORE && bench.snapshot("c") == after {
            continue; // It came too late, and a cabinet that is there is not stored again.
        }
        let start = Instant::now();
        let ended = bench.run(line);
        longest = longest.min(start.elapsed().max(Duration::from_millis(20)));
        assert_eq!(ended.status, status, "{trial}: {}", ended.err);
        if line.starts_with("store") {
            // Its generation may be a later one.
            let finished: Vec<String> = bench
                .snapshot("c")
                .into_iter()
                .map(|(name, _)| name)
                .collect();
            let names: Vec<String> = after.iter().map(|(name, _)| name.clone()).collect();
            assert_eq!(finished, names, "{trial}: the files after");
            bench.done("test c");
            continue;
        }
        assert!(bench.snapshot("c") == after, "{trial}: the state after");
    }
}

fn cabinet() -> Bench {
    let bench = Bench::new();
    bench.write("data", &data(LENGTH));
    bench.done(STORE);
    bench
}

fn image(tray: u32) -> String {
    format!("c/tray-{tray:02}.img")
}

#[test]
fn stores_are_cut() {
    let bench = Bench::new();
    bench.write("data", &data(LENGTH));
    let clear = |bench: &Bench| {
        let _ = std::fs::remove_dir_all(bench.path("c"));
        std::fs::create_dir(bench.path("c")).expect("a folder can be made");
    };
    cut_often(&bench, STORE, CUTS, 0, clear);
}

/// The old data or the new ones are there, whenever it is cut.
#[test]
fn stores_over_another_cabinet_are_cut() {
    let bench = Bench::new();
    bench.write("data", &data(LENGTH / 4));
    bench.write("other", &data(LENGTH / 4 - 100_000));
    let store = "store 10 3 24 9 --volume 9 --replace other c";
    cut_often(&bench, store, 6, 0, |bench| {
        bench.done(&format!("{STORE} --replace"));
    });
}

#[test]
fn repairs_are_cut() {
    let bench = cabinet();
    // A tray that is not live stands at the place of the lost one.
    let stale = bench.read(&image(12));
    cut_often(&bench, REPAIR, CUTS, 0, |bench| {
        bench.write(&image(13), &stale);
    });
    bench.remove(&image(13));
    let cut = (0..10).any(|_| cut_at(&bench, REPAIR, "c/tray-13.spare"));
    assert!(cut, "it was cut after a checkpoint");
    assert!(bench.done(REPAIR).contains("goes on with stripe"));
    bench.done("test c");
}

/// What was found before the cut is said at the end: in stripe 0 a share is wrong.
#[test]
fn a_correcting_repair_is_cut() {
    let bench = Bench::new();
    bench.write("data", &data(LENGTH));
    bench.done("store 10 3 20 9 1 --volume 7 data c");
    let tray = bench.read(&image(13));
    bench.flip(&image(10), SYMBOLS + 6);
    bench.remove(&image(13));
    let cut = (0..10).any(|_| cut_at(&bench, REPAIR, "c/tray-13.spare"));
    assert!(cut, "it was cut after a checkpoint");
    let out = bench.ends(17, REPAIR);
    assert!(out.contains("goes on with stripe"), "{out}");
    assert!(
        out.contains("tray 10 holds wrong symbols in stripe "),
        "{out}"
    );
    assert!(bench.read(&image(13)) == tray, "the tray is as it was");
}

#[test]
fn recoveries_are_cut() {
    let bench = cabinet();
    let lost = [0, 9, 10, 22, 28, 29];
    let lose = |bench: &Bench| {
        lost.iter().for_each(|tray| {
            let _ = std::fs::remove_file(bench.path(&image(*tray)));
        });
    };
    cut_often(&bench, "recover c", CUTS, 0, lose);
    let cut = (0..10).any(|_| {
        lose(&bench);
        cut_at(&bench, "recover c", "c/recover.txt")
    });
    assert!(cut, "it was cut after a checkpoint");
    assert!(bench.done("recover c").contains("goes on with stripe"));
    bench.done("test c");
}

/// By shares, and by a recovery.
#[test]
fn fixes_are_cut() {
    let bench = cabinet();
    let lose = |bench: &Bench, lost: &[u32]| {
        lost.iter().for_each(|tray| {
            let _ = std::fs::remove_file(bench.path(&image(*tray)));
        });
    };
    for lost in [&[13][..], &[0, 29]] {
        cut_often(&bench, "fix c", CUTS / 2, 0, |bench| lose(bench, lost));
    }
    let cut = (0..10).any(|_| {
        lose(&bench, &[13]);
        cut_at(&bench, "fix c", "c/tray-13.spare")
    });
    assert!(cut, "it was cut after a checkpoint");
    let out = bench.done("fix c");
    assert!(out.contains("goes on with stripe"), "{out}");
}

#[test]
fn scrubs_are_cut() {
    let bench = cabinet();
    bench.flip(&image(3), SYMBOLS + 4 * 6);
    cut_often(&bench, "scrub c", CUTS, 65, |_| {});
    let cut = (0..10).any(|_| cut_at(&bench, "scrub c", "c/scrub.txt"));
    assert!(cut, "it was cut after a checkpoint");
    let ended = bench.run("scrub c");
    assert!(ended.out.contains("goes on with stripe"), "{}", ended.out);
    let words = "bad: 1 layer of 667,648 broken, layer 6 of stripe 0 is the first";
    assert!(ended.err.contains(words), "{}", ended.err);
}
