//! Racks of four trays, which only the second field has: symbols are numbers modulo 257.

use gesarumbo::field257::{numbers, read_image, recover, store, test, write_image};
use gesarumbo::{Layout, Refusal, Tray, DEMONSTRATION, LIVE};

/// The bytes before an image's symbols, and those of a symbol.
const HEADER: usize = 24;
const SYMBOL: usize = 2;

fn main() -> Result<(), Refusal> {
    let layout = Layout::new(5, 4, 15, 4);
    let cabinet = numbers(layout)?;
    println!("{} trays of {} symbols", cabinet.trays, cabinet.layers);

    // Bytes are symbols as they are; a parity symbol may be 256, which is no byte.
    let data: Vec<u16> = (0..cabinet.data())
        .map(|at| (7 * at % 256) as u16)
        .collect();
    let mut codeword = vec![0; cabinet.codeword()];
    store(layout, &data, &mut codeword)?;
    println!("what is stored: {:?}", test(layout, &codeword)?);

    let lost = [6, 7, 8, 9, 10].map(Tray::new);
    codeword[6 * cabinet.layers..11 * cabinet.layers].fill(0);
    recover(layout, &mut codeword, &lost)?;
    assert_eq!(codeword[..data.len()], data);
    println!("{} lost: the data are as they were", lost.len());

    // A tray's image has two bytes a symbol. One that is marked demonstration is never read.
    let mut image = vec![0; HEADER + SYMBOL * cabinet.layers];
    let mut symbols = vec![0; cabinet.layers];
    for state in [LIVE, DEMONSTRATION] {
        let (tray, of_tray) = (
            Tray::new(6),
            &codeword[6 * cabinet.layers..][..cabinet.layers],
        );
        write_image(layout, tray, state.into(), 7, of_tray, &mut image)?;
        match read_image(layout, 7, &image, &mut symbols) {
            Ok(tray) => println!("state {state}: tray {tray} is read"),
            Err(refusal) => println!("state {state}: {refusal}"),
        }
    }
    assert_eq!(symbols, codeword[6 * cabinet.layers..][..cabinet.layers]);
    Ok(())
}
