//! The demonstration's last step: a cabinet in which a rack may send a wrong share.

use super::demo::RECORDS;
use crate::code::field::Field;
use crate::code::numbers::Numbers;
use crate::failure::Failure;
use crate::terminal::screen::{Paint, Screen};
use crate::terminal::words::count;
use gesarumbo::{repair_correcting, share, store, Layout, Rack, Tray};

const LAYOUT: Layout = Layout::with_errors(5, 3, 4, 4, 1);
const LOST: Tray = Tray::new(4);
const HELPERS: [Rack; 4] = [Rack::new(0), Rack::new(2), Rack::new(3), Rack::new(4)];

/// The helper whose share is that of an hour ago, by its place.
const STALE: usize = 2;

/// Stores the records, repairs a tray by shares of which one is stale, and compares, in memory.
pub fn tell(screen: &mut Screen) -> Result<(), Failure> {
    let numbers = Numbers::of(LAYOUT, Field::Of256)?;
    screen.heading("8. A rack that answers wrongly");
    screen.line(format!(
        "  In {} one of {} shares may be wrong. Rack {} sends a stale one.",
        numbers.name(),
        numbers.helpers,
        HELPERS[STALE]
    ));
    let codeword = stored(&numbers)?;
    let layers = numbers.layers;
    let racks: Vec<&[u8]> = codeword.chunks(numbers.rack()).collect();
    let rack = |rack: Rack| racks[rack.number() as usize];
    let mut shares = vec![0; numbers.traffic];
    let host = numbers.rack_of(LOST);
    for (helper, sent) in HELPERS.iter().zip(shares.chunks_mut(numbers.groups)) {
        share(LAYOUT, host, *helper, rack(*helper), sent).map_err(Failure::refused("share"))?;
    }
    shares[STALE * numbers.groups..][..3].fill(0xEE);
    let mut spare = vec![0; layers];
    let done = repair_correcting(LAYOUT, LOST, &HELPERS, &shares, rack(host), &mut spare)
        .map_err(Failure::refused("repair"))?;
    let same = spare == codeword[LOST.number() as usize * layers..][..layers];
    match done.rack {
        Some(named) if same && named == HELPERS[STALE] => {
            let words = screen.paint(Paint::Warning, &format!("rack {named} is stale"));
            let crossed = count(done.crossed as usize, "symbol");
            screen.line(format!("  {crossed} cross; the repair says: {words}."));
            let same = screen.paint(Paint::Good, "the same");
            screen.line(format!("  Tray {LOST} is {same}, symbol by symbol."));
            Ok(())
        }
        _ => Err(Failure::Internal(
            "a stale share spoilt the repair".to_string(),
        )),
    }
}

/// The records and zeros as a codeword.
fn stored(numbers: &Numbers) -> Result<Vec<u8>, Failure> {
    let mut data = RECORDS.concat();
    data.resize(numbers.data(), 0);
    let mut codeword = vec![0; numbers.codeword()];
    store(LAYOUT, &data, &mut codeword).map_err(Failure::refused("store"))?;
    Ok(codeword)
}
