//! The checksum of bytes: the library's call, and ordinary Rust by the same tables and by others.

mod ordinary;

use crate::instructions;
use crate::options::COUNT;
use crate::table;
use crate::timing::{self, Times};
use std::hint::black_box;
use std::time::Instant;

/// The call, which is counted by this name with the number of bytes.
const CHECKSUM: &str = "checksum";
/// The heading of the numbers of bytes.
const BYTES: &str = "bytes";
/// How many bytes are summed.
const LENGTHS: [usize; 4] = [1 << 6, 1 << 10, 1 << 16, 1 << 20];

type Checksum = fn(u64, &[u8]) -> u64;

/// What each version is called, the library first.
const VERSIONS: [(&str, Checksum); 4] = [
    ("library", gesarumbo::checksum),
    ("nibble-tables", ordinary::by_nibble_tables),
    ("one-table", ordinary::by_one_table),
    ("eight-tables", ordinary::by_eight_tables),
];

/// Bytes without any order.
fn filled(length: usize) -> Vec<u8> {
    let mut state = 1u64;
    let mut next = || {
        state = state
            .wrapping_mul(6364136223846793005)
            .wrapping_add(1442695040888963407);
        (state >> 56) as u8
    };
    (0..length).map(|_| next()).collect()
}

/// Asserts that all versions give the same.
fn check(bytes: &[u8]) {
    for (name, checksum) in VERSIONS {
        let same = checksum(0, bytes) == ordinary::by_bits(0, bytes);
        assert!(same, "{name} differs at {} bytes", bytes.len());
    }
}

/// Times every length, in nanoseconds a call and in millions of bytes a second.
pub fn print_times(rounds: usize) {
    let all = LENGTHS.map(|length| {
        let bytes = filled(length);
        check(&bytes);
        (length, times(&bytes, rounds))
    });
    print_figures(", ns", &all, |_, time| time * 1e3);
    print_figures(", MB/s", &all, |length, time| length as f64 / time);
}

/// Prints a table of figures that are worked out from the number of bytes and the microseconds.
fn print_figures(unit: &str, all: &[(usize, Vec<Times>)], figure: impl Fn(usize, f64) -> f64) {
    println!();
    table::heading(BYTES, &names(), unit);
    for (length, times) in all {
        let figures: Vec<Times> = times
            .iter()
            .map(|time| Times {
                least: figure(*length, time.least),
                median: figure(*length, time.median),
            })
            .collect();
        table::row(length, CHECKSUM, &figures);
    }
}

fn times(bytes: &[u8], rounds: usize) -> Vec<Times> {
    timing::in_turns(VERSIONS.len(), rounds, |place, repeats| {
        let checksum = VERSIONS[place].1;
        let start = Instant::now();
        for _ in 0..repeats {
            black_box(checksum(black_box(0), black_box(bytes)));
        }
        start.elapsed()
    })
}

/// Counts the instructions of every length.
pub fn print_instructions() -> Result<(), String> {
    println!();
    table::heading(BYTES, &names(), "");
    for length in LENGTHS {
        let call = format!("{CHECKSUM}-{length}");
        let count = |name: &str| instructions::counted(&[COUNT, &call, name]);
        let counts: Vec<u64> = names().into_iter().map(count).collect::<Result<_, _>>()?;
        table::counts(length, CHECKSUM, &counts);
    }
    Ok(())
}

fn names() -> [&'static str; 4] {
    VERSIONS.map(|(name, _)| name)
}

/// How many bytes the call of this name sums; none where it is another call.
pub fn length_of(call: &str) -> Option<usize> {
    let length = call.strip_prefix(CHECKSUM)?.strip_prefix('-')?;
    length.parse().ok()
}

/// Sums once by a version; none where there is no such version.
pub fn count(length: usize, version: &str) -> Option<()> {
    let (_, checksum) = VERSIONS.into_iter().find(|(name, _)| *name == version)?;
    let bytes = filled(length);
    assert_eq!(counted(checksum, &bytes), ordinary::by_bits(0, &bytes));
    Some(())
}

/// In a function of its own, so that a profiler can count it by its name.
#[inline(never)]
fn counted(checksum: Checksum, bytes: &[u8]) -> u64 {
    checksum(0, bytes)
}

#[cfg(test)]
mod tests {
    use super::*;

    #[test]
    fn all_versions_give_the_same_for_every_short_length() {
        let bytes = filled(100);
        (0..=bytes.len()).for_each(|length| check(&bytes[..length]));
    }

    #[test]
    fn all_versions_go_on_from_another() {
        let bytes = filled(40);
        for (name, checksum) in VERSIONS {
            for cut in 0..=bytes.len() {
                let parts = checksum(checksum(0, &bytes[..cut]), &bytes[cut..]);
                assert_eq!(parts, checksum(0, &bytes), "{name} cut at {cut}");
            }
        }
    }

    #[test]
    fn the_digits_give_the_check_value() {
        for (name, checksum) in VERSIONS {
            assert_eq!(checksum(0, b"123456789"), 0x995D_C9BB_DF19_39FA, "{name}");
        }
    }
}
