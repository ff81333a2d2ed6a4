//! The calls for many codewords, each against as many calls for one codeword of the same data, one
//! after another.

mod calls;
mod library;
mod many;

use crate::instructions;
use crate::table;
use crate::timing::{self, Times};
use calls::Call;
use gesarumbo::Layout;
pub use library::Batched;
use many::Many;
use std::hint::black_box;
use std::time::Instant;

/// How many codewords a batch has.
const CODEWORDS: usize = 256;
/// A call for all codewords, and a call for each.
const VERSIONS: [&str; 2] = ["batch", "single"];

/// Times every call of every layout, in microseconds a batch and in millions of symbols a second.
pub fn print_times<S: Batched>(layouts: &[Layout], rounds: usize) {
    let mut all = vec![];
    for &layout in layouts {
        let many = Many::new(layout, CODEWORDS);
        for call in Call::<S>::ALL {
            call.check(&many);
            let symbols = (call.symbols)(&many.numbers) * CODEWORDS;
            all.push((layout, call.name, symbols, times(&call, &many, rounds)));
        }
    }
    println!("A batch has {CODEWORDS} codewords.");
    print_figures(", µs", &all, |_, time| time);
    print_figures(", million symbols a second", &all, |symbols, time| {
        symbols as f64 / time
    });
}

/// The layout, name, symbols and times of a call.
type Timed = (Layout, &'static str, usize, Vec<Times>);

/// Prints a table of figures that are worked out from the number of symbols and the microseconds.
fn print_figures(unit: &str, all: &[Timed], figure: impl Fn(usize, f64) -> f64) {
    println!();
    table::heading(table::LAYOUT, &VERSIONS, unit);
    for (layout, name, symbols, times) in all {
        let figures: Vec<Times> = times
            .iter()
            .map(|time| Times {
                least: figure(*symbols, time.least),
                median: figure(*symbols, time.median),
            })
            .collect();
        table::row(layout, name, &figures);
    }
}

/// Times a call by both versions. The buffers are as before each turn, outside of the time.
fn times<S: Batched>(call: &Call<S>, many: &Many<S>, rounds: usize) -> Vec<Times> {
    let before = (call.before)(many);
    let mut buffers = [before.together.clone(), before.apart.clone()];
    timing::in_turns(VERSIONS.len(), rounds, |place, repeats| {
        let buffer = &mut buffers[place];
        buffer.copy_from_slice([&before.together, &before.apart][place]);
        let start = Instant::now();
        for _ in 0..repeats {
            match place {
                0 => (call.batch)(many, black_box(buffer)),
                _ => call.one_by_one(many, black_box(buffer)),
            }
        }
        start.elapsed()
    })
}

/// Counts every call of every layout, and prints how many instructions a symbol has.
pub fn print_instructions<S: Batched>(layouts: &[Layout]) -> Result<(), String> {
    println!();
    println!("A batch has {CODEWORDS} codewords. Instructions a symbol:");
    println!();
    table::heading(table::LAYOUT, &VERSIONS, "");
    for &layout in layouts {
        let numbers = S::numbers(layout).expect("the layout is admissible");
        for call in Call::<S>::ALL {
            let symbols = (call.symbols)(&numbers);
            let count = |version| instructions::of_batch(S::COUNT, layout, call.name, version);
            let (of_batch, of_one) = (count(VERSIONS[0])?, count(VERSIONS[1])?);
            let each = [of_batch as f64 / CODEWORDS as f64, of_one as f64];
            table::figures(layout, call.name, &each.map(|count| count / symbols as f64));
        }
    }
    Ok(())
}

/// Does a call by a version once, that for one codeword for the first one alone; none where there
/// is no such call or version.
pub fn count<S: Batched>(layout: Layout, call: &str, version: &str) -> Option<()> {
    let call = Call::<S>::named(call)?;
    let place = VERSIONS.iter().position(|&name| name == version)?;
    let many = Many::new(layout, CODEWORDS);
    let before = (call.before)(&many);
    match place {
        0 => counted(&call, &many, &mut before.together.clone()),
        _ => {
            let first = &before.apart[..before.apart.len() / CODEWORDS];
            counted_single(&call, &many, &mut first.to_vec());
        }
    }
    Some(())
}

/// In functions of their own, so that a profiler can count them by their names.
#[inline(never)]
fn counted<S: Batched>(call: &Call<S>, many: &Many<S>, buffer: &mut [S]) {
    (call.batch)(many, buffer);
}

#[inline(never)]
fn counted_single<S: Batched>(call: &Call<S>, many: &Many<S>, buffer: &mut [S]) {
    (call.single)(many, 0, buffer);
}

#[cfg(test)]
mod tests {
    use super::*;

    fn both_write_the_same<S: Batched>() {
        for &layout in S::LAYOUTS_OF_BATCHES {
            let many = Many::<S>::new(layout, 5);
            Call::ALL.iter().for_each(|call| call.check(&many));
        }
    }

    #[test]
    fn both_write_the_same_in_both_fields() {
        both_write_the_same::<u8>();
        both_write_the_same::<u16>();
    }
}
