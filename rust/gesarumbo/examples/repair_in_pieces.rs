//! A lost tray is repaired from the other racks' shares, three groups at a time, and read meanwhile.

use gesarumbo::{numbers, read_part, repair, share, store, Layout, Rack, Refusal, Tray};

fn main() -> Result<(), Refusal> {
    let layout = Layout::new(4, 3, 8, 3);
    let cabinet = numbers(layout)?;
    let data: Vec<u8> = (0..cabinet.data()).map(|at| (7 * at + 3) as u8).collect();
    let mut codeword = vec![0; cabinet.codeword()];
    store(layout, &data, &mut codeword)?;

    // Tray 5, in rack 1, is lost. Each of the other racks sends a share.
    let (lost, host, helpers) = (Tray::new(5), Rack::new(1), [0, 2, 3].map(Rack::new));
    let racks: Vec<&[u8]> = codeword.chunks(cabinet.rack()).collect();
    let mut shares = vec![0; cabinet.traffic];
    for (helper, sent) in helpers.iter().zip(shares.chunks_mut(cabinet.groups)) {
        share(layout, host, *helper, racks[helper.number() as usize], sent)?;
    }

    // A piece goes on from the groups done; power may fail between two pieces.
    let (mut spare, mut done) = (vec![0; cabinet.layers], 0);
    while done < cabinet.groups as u64 {
        let piece = repair(
            layout, lost, &helpers, &shares, racks[1], &mut spare, done, 3,
        )?;
        done += piece.groups;
        println!(
            "{done} of {} groups, {} symbols to come",
            cabinet.groups, piece.remaining
        );
        match read_part(layout, &codeword, &spare, lost, done, lost, 4..8) {
            Ok(part) => println!("layers 4 to 7: {part:02X?}"),
            Err(refusal) => println!("layers 4 to 7: {refusal}"),
        }
    }
    assert_eq!(spare, codeword[5 * cabinet.layers..][..cabinet.layers]);
    println!(
        "{} symbols crossed for a tray of {}",
        cabinet.traffic, cabinet.layers
    );
    Ok(())
}
