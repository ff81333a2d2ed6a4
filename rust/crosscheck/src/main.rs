//! The command: see `--help`.

use crosscheck::crosscheck::{Crosscheck, Effort};
use crosscheck::options::{Options, HELP};
use crosscheck::writing;
use std::process::ExitCode;

fn main() -> ExitCode {
    match Options::parse(std::env::args().skip(1)) {
        Ok(options) if options.help => {
            println!("{HELP}");
            ExitCode::SUCCESS
        }
        Ok(options) => match &options.write {
            Some(folder) => done(writing::write(&options.vectors, folder)),
            None => run(&options),
        },
        Err(words) => done(Err(words)),
    }
}

fn done(outcome: Result<(), String>) -> ExitCode {
    match outcome {
        Ok(()) => ExitCode::SUCCESS,
        Err(words) => {
            eprintln!("{words}");
            ExitCode::FAILURE
        }
    }
}

fn run(options: &Options) -> ExitCode {
    println!("seed {}", options.seed);
    let mut crosscheck = Crosscheck::new(options.seed);
    match options.long {
        Some(cases) => crosscheck.long(cases),
        None => crosscheck.bounded(&options.vectors, Effort::Gate),
    }
    if crosscheck.report() {
        ExitCode::SUCCESS
    } else {
        ExitCode::FAILURE
    }
}
