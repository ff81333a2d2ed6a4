//! In a cabinet that allows for it, a lost tray is repaired though one rack sends a stale share.

use gesarumbo::{numbers, repair_correcting, share, store, Layout, Rack, Refusal, Tray};

fn main() -> Result<(), Refusal> {
    // Five racks of three trays, four trays' worth of data, four helpers, of which one may be wrong.
    let layout = Layout::with_errors(5, 3, 4, 4, 1);
    let cabinet = numbers(layout)?;
    let data: Vec<u8> = (0..cabinet.data()).map(|at| (7 * at + 3) as u8).collect();
    let mut codeword = vec![0; cabinet.codeword()];
    store(layout, &data, &mut codeword)?;

    let (lost, host, helpers) = (Tray::new(4), Rack::new(1), [0, 2, 3, 4].map(Rack::new));
    let racks: Vec<&[u8]> = codeword.chunks(cabinet.rack()).collect();
    let mut shares = vec![0; cabinet.traffic];
    for (helper, sent) in helpers.iter().zip(shares.chunks_mut(cabinet.groups)) {
        share(layout, host, *helper, racks[helper.number() as usize], sent)?;
    }

    // Rack 3 has missed an update: every symbol of its share is wrong.
    for symbol in &mut shares[2 * cabinet.groups..3 * cabinet.groups] {
        *symbol ^= 0x5A;
    }
    let mut spare = vec![0; cabinet.layers];
    let done = repair_correcting(layout, lost, &helpers, &shares, racks[1], &mut spare)?;
    assert_eq!(spare, codeword[4 * cabinet.layers..][..cabinet.layers]);
    match done.rack {
        Some(rack) => println!("tray {lost} is as it was; the share of rack {rack} was wrong"),
        None => println!("tray {lost} is as it was; no share was wrong"),
    }

    // Rack 4 sends one wrong symbol besides. That is more than the cabinet allows for.
    shares[3 * cabinet.groups] ^= 1;
    let refused = repair_correcting(layout, lost, &helpers, &shares, racks[1], &mut spare);
    let refusal = refused.unwrap_err();
    println!(
        "with two wrong shares: ground {}: {refusal}",
        refusal.number()
    );
    Ok(())
}
