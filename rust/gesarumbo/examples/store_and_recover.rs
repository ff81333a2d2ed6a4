//! Data are stored over the trays of a cabinet, four trays are lost, and they come back.

use gesarumbo::{numbers, recover, store, Layout, Refusal, Tray};

fn main() -> Result<(), Refusal> {
    // Four racks of three trays, eight trays' worth of data, three helpers in a repair.
    let layout = Layout::new(4, 3, 8, 3);
    let cabinet = numbers(layout)?;
    println!("{} trays of {} bytes", cabinet.trays, cabinet.layers);

    let data: Vec<u8> = (0..cabinet.data()).map(|at| (7 * at + 3) as u8).collect();
    let mut codeword = vec![0; cabinet.codeword()];
    store(layout, &data, &mut codeword)?;
    println!("the first {} hold the data", layout.dimension);

    // Whichever r trays are lost, what they held is not looked at.
    let lost = [0, 4, 5, 11].map(Tray::new);
    for tray in lost {
        codeword[tray.number() as usize * cabinet.layers..][..cabinet.layers].fill(0xFF);
    }
    recover(layout, &mut codeword, &lost)?;
    assert_eq!(codeword[..data.len()], data);
    println!("{} lost: the data are as they were", lost.len());

    // One more is too many: the call says so, and has written nothing.
    let refusal = recover(layout, &mut codeword, &[0, 1, 4, 5, 11].map(Tray::new)).unwrap_err();
    println!("5 lost: refused, ground {}: {refusal}", refusal.number());
    Ok(())
}
