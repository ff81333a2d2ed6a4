//! From what stands at the places of a cabinet to the data: a reset tray is not taken for a live
//! one, a tray is missing, and one that has rotten is found and put right.

use gesarumbo::{gather, numbers, recover_correcting, store, test_kept, write_image};
use gesarumbo::{Layout, Refusal, Tray, DEMONSTRATION, LIVE};

const VOLUME: u32 = 7;

fn main() -> Result<(), Refusal> {
    // Six racks of five trays, 24 trays' worth of data: any 6 may be lost.
    let layout = Layout::new(6, 5, 24, 5);
    let cabinet = numbers(layout)?;
    let data: Vec<u8> = (0..cabinet.data()).map(|at| (7 * at + 3) as u8).collect();
    let mut stored = vec![0; cabinet.codeword()];
    store(layout, &data, &mut stored)?;
    let image = 24 + cabinet.layers;
    let mut places = vec![0; cabinet.trays * image];
    let trays = (0..).map(Tray::new).zip(stored.chunks(cabinet.layers));
    for ((tray, symbols), place) in trays.zip(places.chunks_mut(image)) {
        write_image(layout, tray, LIVE.into(), VOLUME, symbols, place)?;
    }

    // Tray 5 is reset, tray 8 is pulled out, and a bit of tray 17 has flipped.
    let (reset, contents) = (Tray::new(5), vec![0x55; cabinet.layers]);
    let place = &mut places[5 * image..6 * image];
    write_image(
        layout,
        reset,
        DEMONSTRATION.into(),
        VOLUME,
        &contents,
        place,
    )?;
    places[8 * image..9 * image].fill(0);
    places[18 * image - 1] ^= 0x10;

    let mut codeword = vec![0; cabinet.codeword()];
    let mut missing = vec![Tray::new(0); cabinet.trays];
    let count = gather(layout, VOLUME, &places, &mut codeword, &mut missing)?;
    let missing = &missing[..count];
    println!("missing: {}", numbers_of(missing));
    println!("the others: {:?}", test_kept(layout, &codeword, missing)?);
    let recovered = recover_correcting(layout, &mut codeword, missing)?;
    let wrong: Vec<Tray> = recovered.tray.into_iter().collect();
    println!("wrong: {}", numbers_of(&wrong));
    assert_eq!(codeword[..data.len()], data);
    println!("the data are as they were");
    Ok(())
}

/// The numbers of trays, in words.
fn numbers_of(trays: &[Tray]) -> String {
    let words: Vec<String> = trays.iter().map(Tray::to_string).collect();
    words.join(", ")
}
