//! Numbers in words, by runs of those side by side.

use std::ops::Range;

/// Runs that are named.
const MOST: usize = 12;

/// Rising runs in words, 3-5 for one of several numbers; not all if there are many.
pub fn named(runs: &[Range<u64>]) -> String {
    let words: Vec<String> = runs.iter().take(MOST).map(run).collect();
    let left: u64 = runs.iter().skip(MOST).map(|run| run.end - run.start).sum();
    match (runs, left) {
        ([], _) => "none".to_string(),
        (_, 0) => words.join(", "),
        _ => format!("{} and {left} more", words.join(", ")),
    }
}

/// The runs of rising numbers.
pub fn of(numbers: &[u64]) -> Vec<Range<u64>> {
    let runs = numbers.chunk_by(|one, next| one + 1 == *next);
    runs.map(|run| run[0]..run[run.len() - 1] + 1).collect()
}

fn run(run: &Range<u64>) -> String {
    match run.end - run.start {
        1 => run.start.to_string(),
        _ => format!("{}-{}", run.start, run.end - 1),
    }
}

#[cfg(test)]
mod tests {
    use super::{named, of};

    fn words(numbers: impl Iterator<Item = u64>) -> String {
        named(&of(&numbers.collect::<Vec<_>>()))
    }

    #[test]
    fn numbers_are_named_by_runs() {
        assert_eq!(words(0..0), "none");
        assert_eq!(words(7..8), "7");
        assert_eq!(words([0, 1, 3, 5, 6, 7].into_iter()), "0-1, 3, 5-7");
        assert_eq!(words(0..4096), "0-4095");
        let even = words((0..4096).step_by(2));
        assert!(even.ends_with("20, 22 and 2036 more"), "{even}");
    }
}
