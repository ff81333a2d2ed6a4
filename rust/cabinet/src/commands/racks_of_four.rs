//! The demonstration's seventh step: a cabinet with racks of four, in the field of 257.

use super::demo::RECORDS;
use crate::code::field::Field;
use crate::code::numbers::Numbers;
use crate::code::symbol::{from_data, Symbol};
use crate::failure::Failure;
use crate::terminal::screen::{Paint, Screen};
use crate::terminal::words::count;
use gesarumbo::{Layout, Rack, Tray};

const LAYOUT: Layout = Layout::new(5, 4, 15, 4);
const LOST: Tray = Tray::new(6);
const HELPERS: [Rack; 4] = [Rack::new(0), Rack::new(2), Rack::new(3), Rack::new(4)];

/// Stores the records, repairs a tray and compares, in memory.
pub fn tell(screen: &mut Screen) -> Result<(), Failure> {
    let numbers = Numbers::of(LAYOUT, Field::Of257)?;
    screen.heading("7. The same with racks of four, modulo 257");
    let codeword = store(&numbers)?;
    screen.line(format!(
        "  {}: the records and zeros, in {} trays of {} symbols.",
        numbers.name(),
        numbers.trays,
        numbers.layers
    ));
    screen.line(format!(
        "  Tray {LOST} is lost: {} send shares, {} in all in place of {}.",
        count(numbers.helpers, "rack"),
        count(numbers.traffic, "symbol"),
        numbers.data()
    ));
    let lost = &codeword[LOST.number() as usize * numbers.layers..][..numbers.layers];
    if repaired(&numbers, &codeword)? != lost {
        return Err(Failure::Internal(
            "the repaired tray differs from the stored one".to_string(),
        ));
    }
    let same = screen.paint(Paint::Good, "the same");
    screen.line(format!("  The tray is {same}, symbol by symbol."));
    Ok(())
}

fn store(numbers: &Numbers) -> Result<Vec<u16>, Failure> {
    let mut data = RECORDS.concat();
    data.resize(numbers.data(), 0);
    let mut codeword = vec![0; numbers.codeword()];
    (u16::CALLS.store)(LAYOUT, &from_data(&data), &mut codeword)
        .map_err(Failure::refused("store"))?;
    Ok(codeword)
}

/// The lost tray from shares.
fn repaired(numbers: &Numbers, codeword: &[u16]) -> Result<Vec<u16>, Failure> {
    let racks: Vec<&[u16]> = codeword.chunks(numbers.rack()).collect();
    let rack = |rack: Rack| racks[rack.number() as usize];
    let host = numbers.rack_of(LOST);
    let mut shares = vec![0; numbers.traffic];
    for (helper, share) in HELPERS.iter().zip(shares.chunks_mut(numbers.groups)) {
        (u16::CALLS.share_many)(LAYOUT, 1, host, *helper, rack(*helper), share)
            .map_err(Failure::refused("share"))?;
    }
    let mut spare = vec![0; numbers.layers];
    let (lost, all) = ([LOST], u64::MAX);
    (u16::CALLS.repair_many)(
        LAYOUT,
        &lost,
        &HELPERS,
        &shares,
        rack(host),
        &mut spare,
        0,
        all,
    )
    .map_err(Failure::refused("repair"))?;
    Ok(spare)
}
