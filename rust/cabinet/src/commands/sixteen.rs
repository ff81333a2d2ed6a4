//! `cabinet box`: the sixteen-tray box, one symbol a tray.

use super::Command;
use crate::code::sixteen::{digits, read, Written, SIZE};
use crate::disk::Disk;
use crate::failure::{Failure, Outcome};
use crate::terminal::arguments::{needed, Arguments, Setting};
use crate::terminal::screen::{Paint, Screen};
use crate::terminal::words;
use gesarumbo::{sixteen, Rack, Refusal, Tray};
use std::ffi::OsString;

/// The trays of the box, and the symbols of its data.
const TRAYS: usize = 16;
const DATA: usize = 7;

const ERASE: Setting = Setting::with("--erase", "a,b,..", "take these trays as lost too");
const HELPERS: Setting = Setting::with("--helpers", "a,b", "two other racks, rising");

pub const COMMAND: Command = Command {
    name: "box",
    summary: "store, recover and repair in the sixteen-tray box",
    help: HELP,
    settings: &[ERASE, HELPERS],
    run,
};

const HELP: &str = "\
cabinet box store DATA
cabinet box data VALUES [--erase a,b,..]
cabinet box recover VALUES [--erase a,b,..]
cabinet box repair VALUES --helpers a,b

The box has 16 trays of one symbol, 0 to F, in four racks of four, and no files.
DATA are 7 symbols, the coefficients of a polynomial, lowest first. VALUES are
the 16 trays' symbols, with a dot for each tray that is lost; both may be cut
into words anywhere.

store    writes out the 16 values of the data
data     gives the data back from any 7 trays; more must fit together (8)
recover  fills the lost trays, at most 9; with none lost it is a test
repair   brings back the one lost tray from one symbol of each of two racks
";

fn run(arguments: &Arguments, _: &dyn Disk, screen: &mut Screen) -> Result<Outcome, Failure> {
    let words = arguments.some_words("word")?;
    let (action, rest) = words.split_first().expect("there is a word");
    let action = action.to_str().unwrap_or_default();
    let unused = match action {
        "store" => &[ERASE, HELPERS][..],
        "data" | "recover" => &[HELPERS],
        "repair" => &[ERASE],
        _ => {
            let words = "store, data, recover or repair is needed";
            return Err(Failure::Usage(words.to_string()));
        }
    };
    if let Some(setting) = unused.iter().find(|setting| arguments.has(**setting)) {
        let words = format!("there is no setting {} for {action}", setting.name);
        return Err(Failure::Usage(words));
    }
    match action {
        "store" => store(rest, screen).map(|()| Outcome::Done),
        "data" => data(rest, arguments, screen),
        "recover" => recover(rest, arguments, screen),
        _ => repair(rest, arguments, screen).map(|()| Outcome::Done),
    }
}

fn store(words: &[OsString], screen: &mut Screen) -> Result<(), Failure> {
    let Written { symbols, lost } = read(words)?;
    if !lost.is_empty() {
        return Err(Failure::Usage("data have no dots".to_string()));
    }
    let about = format!("data of {}", words::count(symbols.len(), "symbol"));
    let mut values = [0; TRAYS];
    sixteen::store(&symbols, &mut values).map_err(Failure::refused(about))?;
    print(&values, screen);
    Ok(())
}

/// The values on the command line, and the trays that are lost: those with a dot and those named.
fn survivors(words: &[OsString], arguments: &Arguments) -> Result<Written, Failure> {
    let mut written = read(words)?;
    let named = arguments.list(ERASE)?.unwrap_or_default();
    written.lost.extend(named.into_iter().map(Tray::new));
    written.lost.sort();
    written.lost.dedup();
    Ok(written)
}

/// What a refusal is about.
fn about(values: &Written) -> String {
    let trays = words::count(values.symbols.len(), "tray");
    format!("{trays}, {} of them lost", values.lost.len())
}

/// How a recovery ends: with the most lost trays there is nothing to hold the others against.
fn tested(values: &Written) -> Outcome {
    match values.lost.len() {
        lost if lost == TRAYS - DATA => Outcome::NotTested,
        _ => Outcome::Done,
    }
}

fn data(
    words: &[OsString],
    arguments: &Arguments,
    screen: &mut Screen,
) -> Result<Outcome, Failure> {
    let values = survivors(words, arguments)?;
    let mut data = [0; DATA];
    sixteen::data(&values.symbols, &values.lost, &mut data)
        .map_err(Failure::refused(about(&values)))?;
    screen.line(digits(&data));
    Ok(tested(&values))
}

fn recover(
    words: &[OsString],
    arguments: &Arguments,
    screen: &mut Screen,
) -> Result<Outcome, Failure> {
    let mut values = survivors(words, arguments)?;
    let about = about(&values);
    sixteen::recover(&mut values.symbols, &values.lost).map_err(Failure::refused(about))?;
    print(&values.symbols, screen);
    let outcome = tested(&values);
    let end = match outcome {
        Outcome::NotTested => "not tested: no tray to spare".to_string(),
        _ => format!("all are {}", screen.paint(Paint::Good, "sound")),
    };
    screen.line(match values.lost.as_slice() {
        [] => format!("  no tray to bring back; {end}"),
        lost => format!("  brought back: {}; {end}", words::trays(lost)),
    });
    Ok(outcome)
}

fn repair(words: &[OsString], arguments: &Arguments, screen: &mut Screen) -> Result<(), Failure> {
    let helpers = needed(HELPERS, arguments.list(HELPERS)?)?;
    let helpers: Vec<Rack> = helpers.into_iter().map(Rack::new).collect();
    let mut values = read(words)?;
    let &[lost] = values.lost.as_slice() else {
        let words = "one lost tray is needed, a dot among the values (see recover)";
        return Err(Failure::Usage(words.to_string()));
    };
    if values.symbols.len() != TRAYS {
        return Err(Failure::refused(about(&values))(Refusal::Length));
    }
    let host = Rack::new(lost.number() / SIZE as u32);
    let shares = shares(&values.symbols, host, &helpers)?;
    let (rack, mut spare) = (rack_of(&values.symbols, host), [0]);
    let done = sixteen::repair(lost, &helpers, &lent(&shares), rack, &mut spare)
        .map_err(Failure::refused(format!("repair of tray {lost}")))?;
    values.symbols[lost.number() as usize] = spare[0];
    for (helper, share) in helpers.iter().zip(shares) {
        screen.line(format!("  rack {helper} sends {share:X}"));
    }
    print(&values.symbols, screen);
    let crossed = words::count(done.crossed as usize, "symbol");
    screen.line(format!("  brought back: tray {lost}; {crossed} crossed"));
    Ok(())
}

/// A rack's values, zeros where there is no such rack.
fn rack_of(symbols: &[u8], rack: Rack) -> &[u8] {
    let mut racks = symbols.chunks(SIZE);
    racks.nth(rack.number() as usize).unwrap_or(&[0; SIZE])
}

/// What each helper sends.
fn shares(symbols: &[u8], host: Rack, helpers: &[Rack]) -> Result<Vec<u8>, Failure> {
    let share = |&helper: &Rack| {
        let mut share = [0];
        sixteen::share(host, helper, rack_of(symbols, helper), &mut share)
            .map_err(Failure::refused(format!("share of rack {helper}")))?;
        Ok(share[0])
    };
    helpers.iter().map(share).collect()
}

/// The shares as a repair is lent them, two whatever the helpers are: it is the library that
/// counts these.
fn lent(shares: &[u8]) -> [u8; 2] {
    [0, 1].map(|at| shares.get(at).copied().unwrap_or_default())
}

/// The values rack by rack, as they can be handed to the next command.
fn print(symbols: &[u8], screen: &mut Screen) {
    let racks: Vec<String> = symbols.chunks(SIZE).map(digits).collect();
    screen.line(racks.join(" "));
}
