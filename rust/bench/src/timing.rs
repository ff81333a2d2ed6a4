//! Rounds of one call, the versions taking turns.

use crate::calls::Call;
use crate::filled::Filled;
use crate::symbol::Symbol;
use crate::version::Version;
use std::time::{Duration, Instant};

/// A version is run so often in a round that the fastest takes at least this long.
const LEAST: Duration = Duration::from_micros(50);

/// The times of one version in microseconds a call.
pub struct Times {
    pub least: f64,
    pub median: f64,
}

/// Times a call by each version. The buffer is cleared before each turn, outside of the time.
pub fn time<S: Symbol>(
    call: &Call<S>,
    versions: &[Box<dyn Version<S>>],
    filled: &Filled<S>,
    rounds: usize,
) -> Vec<Times> {
    let before = (call.before)(filled);
    let mut buffer = before.clone();
    in_turns(versions.len(), rounds, |place, repeats| {
        buffer.copy_from_slice(&before);
        let version = versions[place].as_ref();
        let start = Instant::now();
        for _ in 0..repeats {
            (call.run)(version, filled, std::hint::black_box(&mut buffer));
        }
        start.elapsed()
    })
}

/// Times so many versions in rounds: a turn does one of them some times and says how long that took.
pub fn in_turns(
    count: usize,
    rounds: usize,
    mut turn: impl FnMut(usize, u32) -> Duration,
) -> Vec<Times> {
    let fastest = (0..count).map(|place| turn(place, 1)).min();
    let repeats = repeats(fastest.unwrap_or(LEAST));
    let mut all = vec![Vec::with_capacity(rounds); count];
    for round in 0..rounds {
        for step in 0..count {
            let place = (round + step) % count;
            let taken = turn(place, repeats);
            all[place].push(taken.as_secs_f64() * 1e6 / f64::from(repeats));
        }
    }
    all.into_iter().map(summary).collect()
}

fn repeats(once: Duration) -> u32 {
    let once = once.as_nanos().max(1);
    LEAST.as_nanos().div_ceil(once) as u32
}

fn summary(mut times: Vec<f64>) -> Times {
    times.sort_by(f64::total_cmp);
    Times {
        least: times[0],
        median: times[times.len() / 2],
    }
}
