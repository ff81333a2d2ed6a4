//! The sixteen-tray box: one symbol a tray, and a lost tray back from one symbol of two other racks.

use gesarumbo::{sixteen, Rack, Refusal, Tray};

fn main() -> Result<(), Refusal> {
    let data = [1, 2, 3, 4, 5, 6, 7];
    let mut values = [0; 16];
    sixteen::store(&data, &mut values)?;
    for (rack, trays) in values.chunks(4).enumerate() {
        println!("rack {rack}: {trays:X?}");
    }

    // Tray 6, in rack 1, is lost: racks 0 and 3 send a symbol each.
    let (host, helpers, mut shares) = (Rack::new(1), [0, 3].map(Rack::new), [0; 2]);
    for (helper, sent) in helpers.iter().zip(shares.chunks_mut(1)) {
        let rack = &values[4 * helper.number() as usize..][..4];
        sixteen::share(host, *helper, rack, sent)?;
    }
    let mut spare = [0];
    let done = sixteen::repair(Tray::new(6), &helpers, &shares, &values[4..8], &mut spare)?;
    assert_eq!(spare[0], values[6]);
    println!(
        "tray 6 is {:X} again, {} symbols crossed",
        spare[0], done.crossed
    );

    // Any seven trays give the data: here the last ones.
    let mut back = [0; 7];
    sixteen::data(
        &values,
        &[0, 1, 2, 3, 4, 5, 6, 7, 8].map(Tray::new),
        &mut back,
    )?;
    assert_eq!(back, data);
    println!("trays 9 to 15 give the data");
    Ok(())
}
