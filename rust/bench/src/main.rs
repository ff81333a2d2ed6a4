//! The library's calls timed against ordinary Rust by tables over the same data, storing against ISA-L, and calls for many
//! codewords against as many for one.

mod batch;
mod calls;
mod checksum;
mod filled;
mod instructions;
mod isal;
mod machine;
mod options;
mod ordinary;
mod symbol;
mod table;
mod timing;
mod version;

use batch::Batched;
use calls::{Call, CORRECTING, REPAIR};
use filled::Filled;
use gesarumbo::Layout;
use options::{Options, What};
use std::process::ExitCode;
use symbol::Symbol;
use version::Version;

/// How many times the instructions of an ordinary version storing may take.
const LIMIT: u64 = 2;

fn main() -> ExitCode {
    let Some(asked) = options::read(std::env::args().skip(1)) else {
        eprintln!("{}", options::USAGE);
        return ExitCode::FAILURE;
    };
    if let Err(error) = answer(&asked) {
        eprintln!("{error}");
        return ExitCode::FAILURE;
    }
    ExitCode::SUCCESS
}

/// Does what is asked for, in one field or in both.
fn answer(asked: &Options) -> Result<(), String> {
    if let What::Times = asked.what {
        print_conditions(asked.rounds);
    }
    match &asked.what {
        What::Times if asked.checksum => {
            checksum::print_times(asked.rounds);
            return Ok(());
        }
        What::Instructions if asked.checksum => return checksum::print_instructions(),
        What::Count(call, version) => {
            if let Some(length) = checksum::length_of(call) {
                return checksum::count(length, version).ok_or(options::USAGE.to_string());
            }
        }
        _ => {}
    }
    for field in [u8::COUNT, u16::COUNT] {
        if asked.field.is_none_or(|only| only == field) {
            match field {
                u8::COUNT if asked.batch => batches_in::<u8>(asked)?,
                u8::COUNT => answer_in::<u8>(asked)?,
                _ if asked.batch => batches_in::<u16>(asked)?,
                _ => answer_in::<u16>(asked)?,
            }
        }
    }
    Ok(())
}

/// Does what is asked for of the calls for many codewords, in one field.
fn batches_in<S: Batched>(asked: &Options) -> Result<(), String> {
    let layouts = match &asked.layout {
        Some(layout) => std::slice::from_ref(layout),
        None => S::LAYOUTS_OF_BATCHES,
    };
    match &asked.what {
        What::Times => batch::print_times::<S>(layouts, asked.rounds),
        What::Instructions => batch::print_instructions::<S>(layouts)?,
        What::Count(call, version) => {
            let done = batch::count::<S>(layouts[0], call, version);
            return done.ok_or(options::USAGE.to_string());
        }
    }
    Ok(())
}

/// Does what is asked for, in one field.
fn answer_in<S: Symbol>(asked: &Options) -> Result<(), String> {
    let versions = S::versions();
    let layouts = match &asked.layout {
        Some(layout) => std::slice::from_ref(layout),
        None => S::LAYOUTS,
    };
    match &asked.what {
        What::Times if asked.isal => return isal::print_times(layouts, asked.rounds),
        What::Times => print_times(layouts, &versions, asked.rounds),
        What::Instructions if asked.isal => return isal::print_instructions(layouts),
        What::Instructions if asked.quick => return quick_count(layouts[0], &versions),
        What::Instructions => return print_instructions(layouts, &versions),
        What::Count(_, form) if isal::NAMES[1..].contains(&form.as_str()) => {
            return isal::count(layouts[0], form);
        }
        What::Count(call, version) => {
            let call = Call::named(call);
            let version = versions.iter().find(|known| known.name() == version);
            let (Some(call), Some(version)) = (call, version) else {
                return Err(options::USAGE.to_string());
            };
            count(layouts[0], &call, version.as_ref(), asked.rounds);
        }
    }
    Ok(())
}

/// What the times were taken on and how.
fn print_conditions(rounds: usize) {
    println!("Processor: {}.", machine::processor());
    println!("Build: {}.", machine::build());
    println!("Least / median of {rounds} rounds; the versions take turns in each round.");
}

/// Times every call of every layout.
fn print_times<S: Symbol>(layouts: &[Layout], versions: &[Box<dyn Version<S>>], rounds: usize) {
    println!("Buffers to be written were cleared before each turn; all versions wrote the same.");
    println!();
    table::heading(table::LAYOUT, &names(versions), ", µs");
    for &layout in layouts {
        let filled = Filled::new(layout);
        for call in Call::of(layout) {
            call.check(versions, &filled);
            let times = timing::time(&call, versions, &filled, rounds);
            table::row(layout, call.name, &times);
        }
    }
    let wary = layouts.iter().filter(|layout| layout.errors > 0);
    wary.for_each(|&layout| print_against_plain(layout, &versions[..1], rounds));
}

/// Times the library's correcting repairs against its plain repair of as many helpers and layers:
/// that of a layout with two whole racks in k more and E = 0.
fn print_against_plain<S: Symbol>(layout: Layout, library: &[Box<dyn Version<S>>], rounds: usize) {
    let plain = Layout {
        dimension: (layout.dimension / layout.size + 2) * layout.size,
        errors: 0,
        ..layout
    };
    let time = |layout, name| {
        let call = Call::named(name).expect("there is such a call");
        timing::time(&call, library, &Filled::new(layout), rounds).remove(0)
    };
    let repair = time(plain, REPAIR).least;
    println!();
    for name in CORRECTING {
        let factor = time(layout, name).least / repair;
        println!("The library's {name} of {layout} takes {factor:.2} times its repair of {plain}.");
    }
}

/// Counts every call of every layout.
fn print_instructions<S: Symbol>(
    layouts: &[Layout],
    versions: &[Box<dyn Version<S>>],
) -> Result<(), String> {
    println!();
    table::heading(table::LAYOUT, &names(versions), "");
    for &layout in layouts {
        for call in Call::of(layout) {
            table::counts(
                layout,
                call.name,
                &instructions_of(layout, &call, versions)?,
            );
        }
    }
    Ok(())
}

/// Counts storing, and fails where the library takes too many.
fn quick_count<S: Symbol>(layout: Layout, versions: &[Box<dyn Version<S>>]) -> Result<(), String> {
    let store = &Call::ALL[0];
    let all = instructions_of(layout, store, versions)?;
    println!();
    table::heading(table::LAYOUT, &names(versions), "");
    table::counts(layout, store.name, &all);
    if all[1..].iter().any(|&ordinary| all[0] > LIMIT * ordinary) {
        return Err(format!(
            "storing takes more than {LIMIT} times the instructions"
        ));
    }
    match S::STORE_LIMIT {
        Some(limit) if all[0] > limit => {
            Err(format!("storing takes more than {limit} instructions"))
        }
        _ => Ok(()),
    }
}

fn names<S>(versions: &[Box<dyn Version<S>>]) -> Vec<&'static str> {
    versions.iter().map(|version| version.name()).collect()
}

/// The instructions of a call by each version.
fn instructions_of<S: Symbol>(
    layout: Layout,
    call: &Call<S>,
    versions: &[Box<dyn Version<S>>],
) -> Result<Vec<u64>, String> {
    let names = names(versions).into_iter();
    names
        .map(|name| instructions::of(S::COUNT, layout, call.name, name))
        .collect()
}

/// Does a call some times.
fn count<S: Symbol>(layout: Layout, call: &Call<S>, version: &dyn Version<S>, rounds: usize) {
    let filled = Filled::new(layout);
    let mut buffer = (call.before)(&filled);
    for _ in 0..rounds {
        counted(call, version, &filled, &mut buffer);
    }
    assert!(buffer == (call.after)(&filled));
}

/// One call, in a function of its own so that a profiler can count it by its name.
#[inline(never)]
fn counted<S: Symbol>(
    call: &Call<S>,
    version: &dyn Version<S>,
    filled: &Filled<S>,
    buffer: &mut [S],
) {
    (call.run)(version, filled, buffer);
}

#[cfg(test)]
mod tests {
    use super::*;
    use gesarumbo::{Tested, Tray};

    fn all_versions_write_the_same<S: Symbol>() {
        for &layout in S::LAYOUTS {
            let filled = Filled::<S>::new(layout);
            for call in Call::of(layout) {
                call.check(&S::versions(), &filled);
            }
        }
    }

    #[test]
    fn all_versions_write_the_same_in_both_fields() {
        all_versions_write_the_same::<u8>();
        all_versions_write_the_same::<u16>();
    }

    /// A codeword with one symbol changed, and the layer it is in.
    fn damaged<S: Symbol>(filled: &Filled<S>) -> (Vec<S>, usize) {
        let mut codeword = filled.codeword.clone();
        let place = codeword.len() / 2 + 3;
        codeword[place] = S::of(codeword[place].into() + 0x40);
        (codeword, place % filled.numbers.layers)
    }

    fn all_versions_see_a_damage<S: Symbol>() {
        for &layout in S::LAYOUTS {
            let filled = Filled::<S>::new(layout);
            let (codeword, layer) = damaged(&filled);
            for version in S::versions() {
                let Tested::Bad { layer: bad, check } = version.test(&filled.numbers, &codeword)
                else {
                    panic!("{} takes a damaged codeword for sound", version.name());
                };
                assert_eq!((bad.number() as usize, check), (layer, 0));
                assert_eq!(version.walk(&filled.numbers, &codeword), 1);
                let mut lent = codeword.clone();
                assert!(!version.recover(&filled.numbers, &mut lent, &[Tray::new(0)]));
                assert!(lent == codeword, "{} wrote", version.name());
            }
        }
    }

    #[test]
    fn all_versions_see_a_damage_in_both_fields() {
        all_versions_see_a_damage::<u8>();
        all_versions_see_a_damage::<u16>();
    }
}
