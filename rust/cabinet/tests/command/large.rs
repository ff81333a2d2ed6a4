//! A file of 100 MB: stored, a tray lost, repaired, read back and compared, within bounded memory.

use crate::bench::{assert_readable, Bench};
use std::fs;
use std::process::Stdio;
use std::thread;
use std::time::Duration;

const LENGTH: usize = 100_000_000;

/// Kilobytes that a command may take at its peak.
const MOST_MEMORY: u64 = 16 * 1024;

/// Bytes without a pattern.
fn bytes() -> Vec<u8> {
    let mut state = 1_u64;
    let mut next = || {
        state ^= state << 13;
        state ^= state >> 7;
        state ^= state << 17;
        state.to_le_bytes()
    };
    (0..LENGTH / 8).flat_map(|_| next()).collect()
}

/// Runs a line that must be done, and gives what it printed and the most memory that it was seen to
/// take, in kilobytes.
fn measured(bench: &Bench, line: &str) -> (String, u64) {
    let mut child = bench
        .command(line)
        .stdout(Stdio::piped())
        .spawn()
        .expect("the command can be run");
    let status = format!("/proc/{}/status", child.id());
    let mut most = 0;
    while child.try_wait().expect("it can be waited for").is_none() {
        let text = fs::read_to_string(&status).unwrap_or_default();
        let peak = text.lines().find_map(|line| line.strip_prefix("VmHWM:"));
        let peak = peak.and_then(|rest| rest.trim().strip_suffix(" kB"));
        most = most.max(peak.map_or(0, |peak| peak.parse().expect("a number")));
        thread::sleep(Duration::from_millis(1));
    }
    let output = child.wait_with_output().expect("it has ended");
    assert!(output.status.success(), "{line}");
    let out = String::from_utf8(output.stdout).expect("the output is text");
    assert_readable(&out);
    (out, most)
}

#[test]
fn a_file_larger_than_the_memory_that_is_used() {
    let bench = Bench::new();
    let data = bytes();
    bench.write("data", &data);
    let run = |line: &str| {
        let (out, peak) = measured(&bench, line);
        println!("{peak} kB at the peak of: {line}");
        assert!(peak > 0, "{line}: its memory was seen");
        assert!(peak < MOST_MEMORY, "{line}: {peak} kB");
        out
    };
    let out = run("store 10 3 24 9 --volume 7 data c");
    assert!(
        out.contains("volumes 7 to 1024: 4,070 stripes, 100,000,000 bytes"),
        "{out}"
    );
    let tray = bench.read("c/tray-13.img");
    bench.remove("c/tray-13.img");
    let out = run("repair c --lost 13 --helpers 0,1,2,3,5,6,7,8,9");
    assert!(out.contains("18754560 crossed,        0 to come"), "{out}");
    assert!(bench.read("c/tray-13.img") == tray, "the tray is as it was");
    assert!(run("scrub c").contains("sound: each of 4,167,680 layers"));
    for tray in [0, 7, 29] {
        bench.remove(&format!("c/tray-{tray:02}.img"));
    }
    run("get c back --replace");
    assert!(bench.read("back") == data, "the data are as they were");
    run("recover c");
    run("test c");
}
