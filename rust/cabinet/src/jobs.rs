//! Work on several processors at once. Threads only compute: all file calls are made by one thread,
//! in an order that is the same for any number of threads, and so are the files.

use crate::failure::Failure;
use crate::terminal::arguments::{Arguments, Setting};
use std::num::NonZero;
use std::sync::{Mutex, PoisonError};
use std::thread;

pub const JOBS: Setting = Setting::with(
    "--jobs",
    "N",
    "compute on N processors at once, on all if not given; the files are the same for any N",
);

/// No more threads are begun.
const MOST: usize = 64;

/// So many bytes of codewords are worked on at once, or one segment for each thread.
const AT_ONCE: usize = 1 << 20;

/// The number of threads that is asked for, or else that of the processors.
pub fn asked(arguments: &Arguments) -> Result<usize, Failure> {
    match arguments.number(JOBS)? {
        Some(0) => Err(Failure::Usage(format!("{}: one or more", JOBS.name))),
        Some(jobs) => Ok(MOST.min(jobs)),
        None => {
            let processors = thread::available_parallelism();
            Ok(processors.map_or(1, NonZero::get).min(MOST))
        }
    }
}

/// How many segments of so many bytes are worked on at once.
pub fn at_once(jobs: usize, segment: usize) -> usize {
    (AT_ONCE / segment.max(1)).max(jobs)
}

/// Works on all items, several at once, and gives what comes of them in their order.
pub fn map<T: Send, R: Send>(jobs: usize, items: Vec<T>, work: impl Fn(T) -> R + Sync) -> Vec<R> {
    if jobs < 2 || items.len() < 2 {
        return items.into_iter().map(work).collect();
    }
    let helpers = jobs.min(items.len()) - 1;
    let queue = Mutex::new(items.into_iter().enumerate());
    let done = Mutex::new(Vec::new());
    let next = || locked(&queue).next();
    let work_on = || {
        while let Some((place, item)) = next() {
            let result = work(item);
            locked(&done).push((place, result));
        }
    };
    thread::scope(|scope| {
        for _ in 0..helpers {
            // Where the system has no thread to give, this one does all.
            let _ = thread::Builder::new().spawn_scoped(scope, work_on);
        }
        work_on();
    });
    let mut done = done.into_inner().unwrap_or_else(PoisonError::into_inner);
    done.sort_by_key(|(place, _)| *place);
    done.into_iter().map(|(_, result)| result).collect()
}

/// What a lock guards; a thread that panicked ends the command.
fn locked<T>(mutex: &Mutex<T>) -> std::sync::MutexGuard<'_, T> {
    mutex.lock().unwrap_or_else(PoisonError::into_inner)
}

#[cfg(test)]
mod tests {
    use super::map;

    #[test]
    fn results_come_in_order() {
        for jobs in [1, 2, 3, 64] {
            for count in [0, 1, 2, 100] {
                let squares = map(jobs, (0..count).collect(), |number: u64| number * number);
                let expected: Vec<u64> = (0..count).map(|number| number * number).collect();
                assert_eq!(squares, expected, "{jobs} threads");
            }
        }
    }
}
