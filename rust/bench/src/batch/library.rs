//! The library's calls for many codewords, by field.

use crate::symbol::Symbol;
use gesarumbo::{field257, Layout, Numbers, Rack, Tray};

/// A symbol of a field that has these calls.
pub trait Batched: Symbol {
    /// The layouts that are timed.
    const LAYOUTS_OF_BATCHES: &'static [Layout];

    fn store_batch(numbers: &Numbers, many: usize, data: &[Self], codewords: &mut [Self]);
    fn share_batch(
        numbers: &Numbers,
        many: usize,
        host: Rack,
        helper: Rack,
        rack: &[Self],
        share: &mut [Self],
    );
    /// Repairs the whole tray.
    fn repair_batch(
        numbers: &Numbers,
        many: usize,
        lost: Tray,
        helpers: &[Rack],
        shares: &[Self],
        host: &[Self],
        spare: &mut [Self],
    );
}

const RIGHT: &str = "the inputs are right";

/// The library's calls over the symbols of one field, which stand in this module.
macro_rules! batched {
    ($symbol:ty, $calls:ident, $layouts:expr) => {
        impl Batched for $symbol {
            const LAYOUTS_OF_BATCHES: &'static [Layout] = &$layouts;

            fn store_batch(
                numbers: &Numbers,
                many: usize,
                data: &[$symbol],
                codewords: &mut [$symbol],
            ) {
                $calls::store_batch(numbers.layout, many, data, codewords).expect(RIGHT);
            }

            fn share_batch(
                numbers: &Numbers,
                many: usize,
                host: Rack,
                helper: Rack,
                rack: &[$symbol],
                share: &mut [$symbol],
            ) {
                $calls::share_batch(numbers.layout, many, host, helper, rack, share).expect(RIGHT);
            }

            fn repair_batch(
                numbers: &Numbers,
                many: usize,
                lost: Tray,
                helpers: &[Rack],
                shares: &[$symbol],
                host: &[$symbol],
                spare: &mut [$symbol],
            ) {
                let (layout, all) = (numbers.layout, u64::MAX);
                $calls::repair_batch(layout, many, lost, helpers, shares, host, spare, 0, all)
                    .expect(RIGHT);
            }
        }
    };
}

batched!(
    u8,
    gesarumbo,
    [
        Layout::new(10, 3, 24, 9),
        Layout::new(4, 3, 8, 3),
        Layout::new(5, 3, 4, 3),
        Layout::new(7, 5, 24, 6),
    ]
);
batched!(u16, field257, [Layout::new(5, 4, 15, 4)]);
