//! The demonstration's output and what it leaves behind.

use crate::bench::{assert_readable, Bench};

#[test]
fn the_demonstration_is_the_same_every_time() {
    let bench = Bench::new();
    let told = bench.done("demo");
    assert_readable(&told);
    assert_eq!(told, bench.done("demo"));
    assert!(bench.snapshot(".").is_empty(), "files are left behind");
}

#[test]
fn the_demonstration_tells_its_story() {
    let told = Bench::new().done("demo");
    let story = [
        "1. Store",
        "tray 4  We 06:00 Cl 0.8",
        "12 tray images are written",
        "2. Lose tray 4",
        "rack  1    3   -   5",
        "margin 3",
        "3. Meet a factory-reset tray",
        "refused (10): the image is marked demonstration",
        "rack  1    3 (4)   5",
        "4. Repair tray 4 in pieces",
        "[##..............]   1 of 8:  3 crossed, 21 to come",
        "The power fails here",
        "[################]   8 of 8: 24 crossed,  0 to come",
        "all trays together are sound",
        "5. Compare",
        "tray 4  We 06:00 Cl 0.8",
        "All 12 trays are the same",
        "6. Traffic",
        "24 = 3 shares of 8 symbols",
        "128 = 8 trays of 16 symbols",
        "81.2 % saved: 24 symbols in place of 128",
        "7. The same with racks of four",
        "(5, 4, 15, 4) modulo 257",
        "64 symbols in all in place of 480",
        "The tray is the same",
        "8. A rack that answers wrongly",
        "In (5, 3, 4, 4, 1) one of 4 shares may be wrong. Rack 3 sends a stale one.",
        "64 symbols cross; the repair says: rack 3 is stale.",
        "Tray 4 is the same",
    ];
    let mut rest = told.as_str();
    for part in story {
        let Some(at) = rest.find(part) else {
            panic!("'{part}' is missing or out of order in\n{told}");
        };
        rest = &rest[at + part.len()..];
    }
}

#[test]
fn what_is_kept_is_a_sound_cabinet() {
    let bench = Bench::new();
    let told = bench.done("demo --keep c");
    assert_eq!(told, bench.done("demo"));
    assert!(bench.done("test c").contains("sound"));
    assert_eq!(
        bench.snapshot("c").len(),
        13,
        "twelve images and the description"
    );
    bench.done("get c records --erase 4");
    let records = bench.read("records");
    assert_eq!(&records[..32], b"Mo 06:00 Cl 0.6\nMo 18:00 Cl 0.7\n");
    bench.fails(74, "demo --keep c");
}

#[cfg(unix)]
#[test]
fn a_reader_that_goes_away_stops_nothing() {
    let bench = Bench::new();
    let line = format!("{} demo --keep c | :", env!("CARGO_BIN_EXE_cabinet"));
    let ended = std::process::Command::new("sh")
        .args(["-c", &line])
        .current_dir(bench.path("."))
        .output()
        .expect("a shell can be run");
    assert_eq!(String::from_utf8_lossy(&ended.stderr), "");
    assert!(bench.done("test c").contains("sound"));
}

#[cfg(target_os = "linux")]
#[test]
fn output_that_cannot_be_written_is_said() {
    let full = std::fs::File::create("/dev/full").expect("there is a full device");
    let ended = std::process::Command::new(env!("CARGO_BIN_EXE_cabinet"))
        .args(["plan", "4", "3", "8", "3"])
        .stdout(full)
        .output()
        .expect("the command can be run");
    assert_eq!(ended.status.code(), Some(74));
    assert!(String::from_utf8_lossy(&ended.stderr).contains("standard output"));
}
