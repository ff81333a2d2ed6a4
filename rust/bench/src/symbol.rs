//! The two fields, by their symbols: which layouts are timed, and by which versions.

use crate::ordinary::bytes::{LogExp, ProductTable};
use crate::ordinary::prime::{Delayed, Modulo257, Remainder};
use crate::ordinary::Ordinary;
use crate::version::{Library, Version};
use gesarumbo::{field257, Layout, Numbers, Refusal};

/// A symbol of one of the fields.
pub trait Symbol: Copy + Default + PartialEq + Into<u64> + 'static {
    /// How many symbols the field has: the number that it goes by.
    const COUNT: u32;
    /// The layouts that are timed.
    const LAYOUTS: &'static [Layout];
    /// The most instructions that the library may take to store the first of them; none where only
    /// the ordinary versions bound it.
    const STORE_LIMIT: Option<u64>;
    const LIBRARY: &'static dyn Version<Self>;

    /// A symbol of any number.
    fn of(number: u64) -> Self;

    fn numbers(layout: Layout) -> Result<Numbers, Refusal>;

    /// The library, and what it is compared with.
    fn versions() -> [Box<dyn Version<Self>>; 3];
}

/// The layout that W9 names, the usual one, one with three digits, and one with racks of five; the two
/// that W4 admits; then two in which one share may be wrong.
impl Symbol for u8 {
    const COUNT: u32 = 256;
    const LAYOUTS: &'static [Layout] = &[
        Layout::new(10, 3, 24, 9),
        Layout::new(4, 3, 8, 3),
        Layout::new(5, 3, 4, 3),
        Layout::new(9, 5, 35, 8),
        Layout::new(7, 5, 24, 6),
        Layout::new(11, 3, 27, 10),
        Layout::with_errors(10, 3, 18, 9, 1),
        Layout::with_errors(6, 3, 5, 4, 1),
    ];
    const STORE_LIMIT: Option<u64> = Some(380_000);
    const LIBRARY: &'static dyn Version<u8> = &Library;

    fn of(number: u64) -> u8 {
        number as u8
    }

    fn numbers(layout: Layout) -> Result<Numbers, Refusal> {
        gesarumbo::numbers(layout)
    }

    fn versions() -> [Box<dyn Version<u8>>; 3] {
        [
            Box::new(Library),
            Box::new(Ordinary {
                name: "log-exp",
                multiply: LogExp::new(),
            }),
            Box::new(Ordinary {
                name: "product-table",
                multiply: ProductTable::new(),
            }),
        ]
    }
}

/// The layout that W10 names, and two with a thousand layers; then one in which one share may be
/// wrong.
impl Symbol for u16 {
    const COUNT: u32 = 257;
    const LAYOUTS: &'static [Layout] = &[
        Layout::new(5, 4, 15, 4),
        Layout::new(10, 4, 32, 9),
        Layout::new(10, 2, 16, 9),
        Layout::with_errors(10, 4, 24, 9, 1),
    ];
    const STORE_LIMIT: Option<u64> = None;
    const LIBRARY: &'static dyn Version<u16> = &Library;

    fn of(number: u64) -> u16 {
        (number % 257) as u16
    }

    fn numbers(layout: Layout) -> Result<Numbers, Refusal> {
        field257::numbers(layout)
    }

    fn versions() -> [Box<dyn Version<u16>>; 3] {
        [
            Box::new(Library),
            Box::new(Ordinary {
                name: "remainder",
                multiply: Modulo257::<Remainder>::new(),
            }),
            Box::new(Ordinary {
                name: "delayed",
                multiply: Modulo257::<Delayed>::new(),
            }),
        ]
    }
}
