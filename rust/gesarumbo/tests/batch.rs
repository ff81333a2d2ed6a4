//! The calls for many codewords: their grounds in order, and each part against the call for one.

use gesarumbo::{Layout, Rack, Refusal, Repaired, Tray};
use std::fmt::Debug;

/// Numbers of codewords: few, and beside the ends of the blocks that they may be worked on in.
const MANY: [usize; 17] = [
    0, 1, 2, 3, 7, 15, 16, 17, 63, 64, 65, 127, 128, 129, 255, 256, 257,
];

/// Numbers whose products with lengths are small or nothing in 64 bits only.
const HUGE: [usize; 5] = [1 << 32, 1 << 60, 1 << 63, usize::MAX, usize::MAX / 3 + 1];

/// What codeword q has of a buffer.
fn part<S: Copy>(buffer: &[S], many: usize, q: usize) -> Vec<S> {
    buffer.iter().skip(q).step_by(many).copied().collect()
}

/// Symbols that follow no pattern of the code's, all below 251.
fn scattered<S: From<u8>>(seed: usize, length: usize) -> Vec<S> {
    let symbol = |at: usize| S::from(((at * at + 7 * at + seed * 13) % 251) as u8);
    (0..length).map(symbol).collect()
}

/// Asserts that a call is refused on this ground and leaves what it is lent.
fn refused<S, T, F>(ground: Refusal, length: usize, call: F)
where
    S: Clone + Debug + PartialEq + From<u8>,
    T: Debug,
    F: FnOnce(&mut [S]) -> Result<T, Refusal>,
{
    let before: Vec<S> = (0..length).map(|at| S::from(at as u8 ^ 0x5A)).collect();
    let mut lent = before.clone();
    assert_eq!(call(&mut lent).expect_err("it is refused"), ground);
    assert_eq!(lent, before);
}

mod field256 {
    use super::*;
    use gesarumbo::*;

    type Symbol = u8;
    const BAD: Layout = Layout::new(4, 4, 8, 3);
    const GOOD: Layout = Layout::new(4, 3, 8, 3); // 12 trays, 16 layers, 4 checks, 8 groups
    const K: usize = 8;
    const N: usize = 12;
    const U: usize = 3;

    include!("batch/store.rs");
    include!("batch/share.rs");
    include!("batch/repair.rs");
}

mod field257 {
    use super::*;
    use gesarumbo::field257::*;

    type Symbol = u16;
    const BAD: Layout = Layout::new(4, 3, 8, 3);
    const GOOD: Layout = Layout::new(4, 4, 11, 3); // 16 trays, 16 layers, 5 checks, 8 groups
    const K: usize = 11;
    const N: usize = 16;
    const U: usize = 4;

    include!("batch/store.rs");
    include!("batch/share.rs");
    include!("batch/repair.rs");

    #[test]
    fn storing_looks_at_the_data() {
        let mut codewords = vec![9999; 3 * 16 * 16];
        let mut data = scattered(4, 3 * 11 * 16);
        assert_eq!(store_batch(GOOD, 3, &data, &mut codewords), Ok(()));
        assert!(codewords.iter().all(|&symbol| symbol <= 256));
        for at in [0, 1, 3 * 11 * 16 - 1] {
            data[at] = 257;
            refused(Refusal::Number, 3 * 16 * 16, |out| {
                store_batch(GOOD, 3, &data, out)
            });
            data[at] = 256;
        }
    }

    #[test]
    fn sharing_looks_at_the_rack() {
        let host = Rack::new(2);
        let mut rack = scattered(3, 3 * U * 16);
        rack[3 * U * 16 - 1] = 257;
        refused(Refusal::Number, 3 * 8, |out| {
            share_batch(GOOD, 3, host, host, &rack, out)
        });
    }

    /// A tray of the last rack is lost: group p has layers p and p + 8.
    #[test]
    fn a_piece_looks_at_its_own_groups() {
        let (lost, helpers) = (Tray::new(3 * U as u32), racks(&[0, 1, 2]));
        let [shares, host, spare] = lengths(3).map(|length| scattered(6, length));
        let tried = |at_share: Option<usize>, at_host: Option<usize>, first, budget| {
            let (mut shares, mut host) = (shares.clone(), host.clone());
            at_share.into_iter().for_each(|at| shares[at] = 257);
            at_host.into_iter().for_each(|at| host[at] = 257);
            let mut spare = spare.clone();
            repair_batch(
                GOOD, 3, lost, &helpers, &shares, &host, &mut spare, first, budget,
            )
            .err()
        };
        let number = Some(Refusal::Number);
        // The last codeword's symbol of group 5 in the second helper's share.
        let share = Some((8 + 5) * 3 + 2);
        assert_eq!(tried(share, None, 5, 1), number);
        assert_eq!(tried(share, None, 0, 5), None);
        assert_eq!(tried(share, None, 6, 9), None);
        // The first codeword's symbol of layer 13 in the lost tray, and in the one after it.
        assert_eq!(tried(None, Some(13 * 3), 0, 8), None);
        assert_eq!(tried(None, Some((16 + 13) * 3), 0, 8), number);
        assert_eq!(tried(None, Some((16 + 13) * 3), 0, 5), None);
        assert_eq!(tried(None, Some((16 + 13) * 3), 5, 0), None);
    }
}
