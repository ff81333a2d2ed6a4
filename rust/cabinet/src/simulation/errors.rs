//! Every error at every call of every line; of long ones, one of them at each call.

use super::scenes::{names, reading, writing, Scene};
use super::{is_done, run};

/// No such device's data, no room, no handles, no right, and a call that was broken off.
const ERRORS: [i32; 5] = [5, 28, 24, 13, 4];

/// A line with more calls than this meets one error at each, by turns.
const MANY: usize = 150;

/// Lets every call of a line fail with every error, and gives how many were tried.
fn fail(scene: &Scene) -> usize {
    let whole = scene.before.copy();
    run(&whole, scene.line);
    let (finished, calls) = (names(&whole), whole.calls());
    let mut tried = 0;
    for call in 1..=calls {
        let turn = call % ERRORS.len();
        let errors = match calls > MANY {
            true => &ERRORS[turn..=turn],
            false => &ERRORS[..],
        };
        for error in errors.iter().copied() {
            tried += 1;
            let disk = scene.before.copy();
            disk.fail_at(call, error);
            let ended = run(&disk, scene.line);
            let trial = format!("error {error} at call {call} of {calls}: {ended:?}");
            if is_done(ended.status) {
                scene.judge_output(&disk, &trial);
            }
            scene.judge(&disk.copy(), &finished, &trial);
        }
    }
    println!("{}: {tried} errors", scene.name);
    tried
}

#[test]
fn lines_that_write_trays() {
    let tried: usize = writing().iter().map(fail).sum();
    println!("{tried} errors");
    assert!(tried > 1_000, "{tried}");
}

#[test]
fn lines_that_write_other_files() {
    let tried: usize = reading().iter().map(fail).sum();
    println!("{tried} errors");
    assert!(tried > 1_000, "{tried}");
}
