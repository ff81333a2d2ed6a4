//! The grounds of each call: everything is wrong at first, and is put right one ground at a time.
//! Each call must name the first ground that is left, and leave the buffer it was lent as it was.

#[path = "grounds/sixteen.rs"]
mod sixteen;

use gesarumbo::*;
use std::fmt::Debug;

/// Asserts that a call is refused on this ground and leaves a buffer of this length.
fn refused<S, T, F>(ground: Refusal, length: usize, call: F)
where
    S: Clone + Debug + PartialEq + From<u8>,
    T: Debug,
    F: FnOnce(&mut [S]) -> Result<T, Refusal>,
{
    let before: Vec<S> = (0..length).map(|i| S::from(i as u8 ^ 0x5A)).collect();
    let mut lent = before.clone();
    let answer = call(&mut lent);
    assert_eq!(answer.expect_err("it is refused"), ground);
    assert_eq!(lent, before);
}

/// Asserts that a call is refused on this ground and leaves the record.
fn record_left<T: Debug>(
    ground: Refusal,
    numbers: [u32; 3],
    call: impl FnOnce(&mut ScrubRecord) -> Result<T, Refusal>,
) {
    let [next, bad, first] = numbers;
    let before = ScrubRecord::new(next, bad, first);
    let mut lent = before;
    assert_eq!(call(&mut lent).expect_err("it is refused"), ground);
    assert_eq!(lent, before);
}

fn trays(numbers: &[u32]) -> Vec<Tray> {
    numbers.iter().copied().map(Tray::new).collect()
}

fn racks(numbers: &[u32]) -> Vec<Rack> {
    numbers.iter().copied().map(Rack::new).collect()
}

mod field256 {
    use super::*;

    type Symbol = u8;
    const BYTES: usize = 1;
    const U: u32 = 3;
    const K: u32 = 8;
    const N: u32 = 12;
    const BAD: Layout = Layout::new(4, 4, 8, 3);
    const GOOD: Layout = Layout::new(4, U, K, 3); // 12 trays, 16 layers, 4 checks, 8 groups
    const LESS: Layout = Layout::new(4, 3, 7, 3); // the same, but 5 checks: two of a rack may be lost
    const WARY: Layout = Layout::with_errors(5, U, 4, 4, 1); // 15 trays, 32 layers, 16 groups

    fn read_tray(layout: Layout, volume: u32, image: &[u8]) -> Result<(Tray, Vec<u8>), Refusal> {
        let read = read_image(layout, volume, image);
        read.map(|read| (read.tray, read.symbols.to_vec()))
    }

    include!("grounds/calls.rs");
}

mod field257 {
    use super::*;
    use gesarumbo::field257::write_image;
    use gesarumbo::field257::{card, card_repair, card_test, gather, gather_rack, margin, measure};
    use gesarumbo::field257::{read_image, read_part, recover, recover_correcting, repair};
    use gesarumbo::field257::{
        repair_correcting, repair_many, scrub, scrub_reset, share, share_add,
    };
    use gesarumbo::field257::{share_add_many, share_many, states, store, test, test_kept};

    type Symbol = u16;
    const BYTES: usize = 2;
    const U: u32 = 4;
    const K: u32 = 11;
    const N: u32 = 16;
    const BAD: Layout = Layout::new(4, 3, 8, 3);
    const GOOD: Layout = Layout::new(4, U, K, 3); // 16 trays, 16 layers, 5 checks, 8 groups
    const LESS: Layout = Layout::new(4, 4, 10, 3); // the same, but 6 checks: two of a rack may be lost
    const WARY: Layout = Layout::with_errors(5, U, 4, 4, 1); // 20 trays, 32 layers, 16 groups

    fn read_tray(layout: Layout, volume: u32, image: &[u8]) -> Result<(Tray, Vec<u16>), Refusal> {
        let mut symbols = vec![9999; 16];
        let read = read_image(layout, volume, image, &mut symbols);
        assert!(read.is_ok() || symbols == [9999; 16]);
        read.map(|tray| (tray, symbols))
    }

    include!("grounds/calls.rs");
}
