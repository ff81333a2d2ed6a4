//! The library's C functions, and the only unsafe code of this crate.
//!
//! What makes each call sound is the same. A slice goes over as its pointer and its length, and the
//! loan lasts as long as the call: the library is proved to stay inside the lengths it is given and
//! keeps no pointer. What it writes is lent `&mut`, so a buffer that is written overlaps no other
//! one of the call. Structs and kinds have the layout of the header `c/gesarumbo.h`.

#[macro_use]
mod batch;

use crate::{Layout, Rack, ScrubRecord, Tray};

/// The answer to a measuring; `refusal` is 0 where the call was done, here and below.
#[repr(C)]
pub struct Measured {
    pub refusal: u32,
    pub layers: u32,
    pub checks: u32,
    pub traffic: u32,
}

/// The answer to a test; `verdict` is 1 for sound and 2 for bad.
#[repr(C)]
pub struct Tested {
    pub refusal: u32,
    pub verdict: u32,
    pub layer: u32,
    pub check: u32,
}

/// The answer to a recovery that corrects; `tray` is the layout's number of trays where none was
/// wrong.
#[repr(C)]
pub struct Recovered {
    pub refusal: u32,
    pub tray: Tray,
    pub checks: u32,
}

/// The answer to a test with trays missing; `verdict` is 1 for sound and 2 for bad.
#[repr(C)]
pub struct Kept {
    pub refusal: u32,
    pub verdict: u32,
    pub layer: u32,
    pub checks: u32,
}

/// The answer to a gathering: how many trays are missing.
#[repr(C)]
pub struct Gathered {
    pub refusal: u32,
    pub count: u32,
}

/// The answer to a piece of a repair.
#[repr(C)]
pub struct Repaired {
    pub refusal: u32,
    pub groups: u64,
    pub crossed: u64,
    pub remaining: u64,
}

/// The answer to a repair with a share that may be wrong; `rack` is the layout's number of racks
/// where none was.
#[repr(C)]
pub struct Corrected {
    pub refusal: u32,
    pub rack: Rack,
    pub crossed: u64,
}

/// The answer to a read while repairing: where the part lies, `source` being 1 for the codeword and
/// 2 for the spare.
#[repr(C)]
pub struct Part {
    pub refusal: u32,
    pub source: u32,
    pub offset: usize,
    pub length: usize,
}

/// The answer to the reading of an image of the first field: where its symbols lie in it.
#[repr(C)]
pub struct Image {
    pub refusal: u32,
    pub tray: Tray,
    pub offset: usize,
    pub length: usize,
}

/// The answer to the reading of an image of the second field, whose symbols are copied.
#[repr(C)]
pub struct Image257 {
    pub refusal: u32,
    pub tray: Tray,
}

/// The answer to a question for the margin.
#[repr(C)]
pub struct Margin {
    pub refusal: u32,
    pub margin: i32,
}

/// The answer to a call of a walk; `report` is 1 for unfinished, 2 for sound and 3 for bad.
#[repr(C)]
pub struct Scrubbed {
    pub refusal: u32,
    pub report: u32,
    pub record: ScrubRecord,
}

/// The same where the record was lent.
#[repr(C)]
pub struct Reported {
    pub refusal: u32,
    pub report: u32,
}

/// The calls that both fields have alike: the C functions with this prefix over symbols of this
/// type, and each of them as a safe function over slices.
macro_rules! calls {
    ($prefix:literal, $symbol:ty) => {
        mod c {
            use super::*;

            extern "C" {
                #[link_name = concat!($prefix, "_measure")]
                pub fn measure(layout: Layout) -> Measured;
                #[link_name = concat!($prefix, "_test")]
                pub fn test(layout: Layout, codeword: *const $symbol, length: usize) -> Tested;
                #[link_name = concat!($prefix, "_store")]
                pub fn store(
                    layout: Layout,
                    data: *const $symbol,
                    data_length: usize,
                    codeword: *mut $symbol,
                    length: usize,
                ) -> u32;
                #[link_name = concat!($prefix, "_recover")]
                pub fn recover(
                    layout: Layout,
                    codeword: *mut $symbol,
                    length: usize,
                    erased: *const Tray,
                    count: usize,
                ) -> u32;
                #[link_name = concat!($prefix, "_recover_correcting")]
                pub fn recover_correcting(
                    layout: Layout,
                    codeword: *mut $symbol,
                    length: usize,
                    erased: *const Tray,
                    count: usize,
                ) -> Recovered;
                #[link_name = concat!($prefix, "_test_kept")]
                pub fn test_kept(
                    layout: Layout,
                    codeword: *const $symbol,
                    length: usize,
                    erased: *const Tray,
                    count: usize,
                ) -> Kept;
                #[link_name = concat!($prefix, "_states")]
                pub fn states(
                    layout: Layout,
                    volume: u32,
                    images: *const u8,
                    images_length: usize,
                    states: *mut u8,
                    states_length: usize,
                ) -> u32;
                #[link_name = concat!($prefix, "_gather")]
                pub fn gather(
                    layout: Layout,
                    volume: u32,
                    images: *const u8,
                    images_length: usize,
                    codeword: *mut $symbol,
                    length: usize,
                    missing: *mut Tray,
                    missing_length: usize,
                ) -> Gathered;
                #[link_name = concat!($prefix, "_gather_rack")]
                pub fn gather_rack(
                    layout: Layout,
                    volume: u32,
                    rack: Rack,
                    lost: *const Tray,
                    lost_count: usize,
                    images: *const u8,
                    images_length: usize,
                    out: *mut $symbol,
                    out_length: usize,
                ) -> u32;
                #[link_name = concat!($prefix, "_share")]
                pub fn share(
                    layout: Layout,
                    host: Rack,
                    helper: Rack,
                    rack: *const $symbol,
                    rack_length: usize,
                    share: *mut $symbol,
                    share_length: usize,
                ) -> u32;
                #[link_name = concat!($prefix, "_share_add")]
                pub fn share_add(
                    layout: Layout,
                    host: Rack,
                    tray: Tray,
                    symbols: *const $symbol,
                    symbols_length: usize,
                    share: *mut $symbol,
                    share_length: usize,
                ) -> u32;
                #[link_name = concat!($prefix, "_share_many")]
                pub fn share_many(
                    layout: Layout,
                    lost_count: u32,
                    host: Rack,
                    helper: Rack,
                    rack: *const $symbol,
                    rack_length: usize,
                    share: *mut $symbol,
                    share_length: usize,
                ) -> u32;
                #[link_name = concat!($prefix, "_share_add_many")]
                pub fn share_add_many(
                    layout: Layout,
                    lost_count: u32,
                    host: Rack,
                    tray: Tray,
                    symbols: *const $symbol,
                    symbols_length: usize,
                    share: *mut $symbol,
                    share_length: usize,
                ) -> u32;
                #[link_name = concat!($prefix, "_repair")]
                pub fn repair(
                    layout: Layout,
                    lost: Tray,
                    helpers: *const Rack,
                    count: usize,
                    shares: *const $symbol,
                    shares_length: usize,
                    host: *const $symbol,
                    host_length: usize,
                    spare: *mut $symbol,
                    spare_length: usize,
                    first: u64,
                    budget: u64,
                ) -> Repaired;
                #[link_name = concat!($prefix, "_repair_many")]
                pub fn repair_many(
                    layout: Layout,
                    lost: *const Tray,
                    lost_count: usize,
                    helpers: *const Rack,
                    count: usize,
                    shares: *const $symbol,
                    shares_length: usize,
                    host: *const $symbol,
                    host_length: usize,
                    spare: *mut $symbol,
                    spare_length: usize,
                    first: u64,
                    budget: u64,
                ) -> Repaired;
                #[link_name = concat!($prefix, "_repair_correcting")]
                pub fn repair_correcting(
                    layout: Layout,
                    lost: Tray,
                    helpers: *const Rack,
                    count: usize,
                    shares: *const $symbol,
                    shares_length: usize,
                    host: *const $symbol,
                    host_length: usize,
                    spare: *mut $symbol,
                    spare_length: usize,
                ) -> Corrected;
                #[link_name = concat!($prefix, "_card")]
                pub fn card(
                    layout: Layout,
                    lost: Tray,
                    helpers: *const Rack,
                    count: usize,
                    group: u64,
                    card: *mut $symbol,
                    card_length: usize,
                ) -> u32;
                #[link_name = concat!($prefix, "_card_test")]
                pub fn card_test(
                    layout: Layout,
                    lost: Tray,
                    helpers: *const Rack,
                    count: usize,
                    card: *const $symbol,
                    card_length: usize,
                    group: u64,
                ) -> u32;
                #[link_name = concat!($prefix, "_card_repair")]
                pub fn card_repair(
                    layout: Layout,
                    lost: Tray,
                    helpers: *const Rack,
                    count: usize,
                    card: *const $symbol,
                    card_length: usize,
                    shares: *const $symbol,
                    shares_length: usize,
                    host: *const $symbol,
                    host_length: usize,
                    spare: *mut $symbol,
                    spare_length: usize,
                    group: u64,
                ) -> Repaired;
                #[link_name = concat!($prefix, "_read_part")]
                pub fn read_part(
                    layout: Layout,
                    codeword: *const $symbol,
                    length: usize,
                    spare: *const $symbol,
                    spare_length: usize,
                    lost: Tray,
                    groups: u64,
                    tray: Tray,
                    first: u32,
                    end: u32,
                ) -> Part;
                #[link_name = concat!($prefix, "_write_image")]
                pub fn write_image(
                    layout: Layout,
                    tray: Tray,
                    state: u32,
                    volume: u32,
                    symbols: *const $symbol,
                    symbols_length: usize,
                    image: *mut u8,
                    image_length: usize,
                ) -> u32;
                #[link_name = concat!($prefix, "_margin")]
                pub fn margin(layout: Layout, states: *const u8, length: usize) -> Margin;
                #[link_name = concat!($prefix, "_scrub_reset")]
                pub fn scrub_reset(layout: Layout, record: ScrubRecord) -> Scrubbed;
                #[link_name = concat!($prefix, "_scrub")]
                pub fn scrub(
                    layout: Layout,
                    codeword: *const $symbol,
                    length: usize,
                    record: ScrubRecord,
                    budget: u64,
                ) -> Scrubbed;
                #[link_name = concat!($prefix, "_scrub_reset_in_place")]
                pub fn scrub_reset_in_place(layout: Layout, record: *mut ScrubRecord) -> Reported;
                #[link_name = concat!($prefix, "_scrub_in_place")]
                pub fn scrub_in_place(
                    layout: Layout,
                    codeword: *const $symbol,
                    length: usize,
                    record: *mut ScrubRecord,
                    budget: u64,
                ) -> Reported;
            }
        }

        pub fn measure(layout: Layout) -> Measured {
            // SAFETY: numbers only.
            unsafe { c::measure(layout) }
        }

        pub fn test(layout: Layout, codeword: &[$symbol]) -> Tested {
            // SAFETY: the slice is lent for the call.
            unsafe { c::test(layout, codeword.as_ptr(), codeword.len()) }
        }

        pub fn store(layout: Layout, data: &[$symbol], codeword: &mut [$symbol]) -> u32 {
            // SAFETY: both slices are lent for the call, the written one alone.
            unsafe {
                c::store(
                    layout,
                    data.as_ptr(),
                    data.len(),
                    codeword.as_mut_ptr(),
                    codeword.len(),
                )
            }
        }

        pub fn recover(layout: Layout, codeword: &mut [$symbol], erased: &[Tray]) -> u32 {
            // SAFETY: both slices are lent for the call, the written one alone; a tray is a 32-bit number.
            unsafe {
                c::recover(
                    layout,
                    codeword.as_mut_ptr(),
                    codeword.len(),
                    erased.as_ptr(),
                    erased.len(),
                )
            }
        }

        pub fn recover_correcting(
            layout: Layout,
            codeword: &mut [$symbol],
            erased: &[Tray],
        ) -> Recovered {
            // SAFETY: both slices are lent for the call, the written one alone; a tray is a 32-bit number.
            unsafe {
                c::recover_correcting(
                    layout,
                    codeword.as_mut_ptr(),
                    codeword.len(),
                    erased.as_ptr(),
                    erased.len(),
                )
            }
        }

        pub fn test_kept(layout: Layout, codeword: &[$symbol], erased: &[Tray]) -> Kept {
            // SAFETY: both slices are lent for the call; a tray is a 32-bit number.
            unsafe {
                c::test_kept(
                    layout,
                    codeword.as_ptr(),
                    codeword.len(),
                    erased.as_ptr(),
                    erased.len(),
                )
            }
        }

        pub fn states(layout: Layout, volume: u32, images: &[u8], states: &mut [u8]) -> u32 {
            // SAFETY: both slices are lent for the call, the written one alone.
            unsafe {
                c::states(
                    layout,
                    volume,
                    images.as_ptr(),
                    images.len(),
                    states.as_mut_ptr(),
                    states.len(),
                )
            }
        }

        pub fn gather(
            layout: Layout,
            volume: u32,
            images: &[u8],
            codeword: &mut [$symbol],
            missing: &mut [Tray],
        ) -> Gathered {
            // SAFETY: all slices are lent for the call, each written one alone; a tray is a 32-bit number,
            // and every 32-bit number is a tray.
            unsafe {
                c::gather(
                    layout,
                    volume,
                    images.as_ptr(),
                    images.len(),
                    codeword.as_mut_ptr(),
                    codeword.len(),
                    missing.as_mut_ptr(),
                    missing.len(),
                )
            }
        }

        pub fn gather_rack(
            layout: Layout,
            volume: u32,
            rack: Rack,
            lost: &[Tray],
            images: &[u8],
            out: &mut [$symbol],
        ) -> u32 {
            // SAFETY: all slices are lent for the call, the written one alone; a tray is a 32-bit number.
            unsafe {
                c::gather_rack(
                    layout,
                    volume,
                    rack,
                    lost.as_ptr(),
                    lost.len(),
                    images.as_ptr(),
                    images.len(),
                    out.as_mut_ptr(),
                    out.len(),
                )
            }
        }

        pub fn share(
            layout: Layout,
            host: Rack,
            helper: Rack,
            rack: &[$symbol],
            share: &mut [$symbol],
        ) -> u32 {
            // SAFETY: both slices are lent for the call, the written one alone.
            unsafe {
                c::share(
                    layout,
                    host,
                    helper,
                    rack.as_ptr(),
                    rack.len(),
                    share.as_mut_ptr(),
                    share.len(),
                )
            }
        }

        pub fn share_add(
            layout: Layout,
            host: Rack,
            tray: Tray,
            symbols: &[$symbol],
            share: &mut [$symbol],
        ) -> u32 {
            // SAFETY: both slices are lent for the call, the written one alone.
            unsafe {
                c::share_add(
                    layout,
                    host,
                    tray,
                    symbols.as_ptr(),
                    symbols.len(),
                    share.as_mut_ptr(),
                    share.len(),
                )
            }
        }

        pub fn share_many(
            layout: Layout,
            lost_count: u32,
            host: Rack,
            helper: Rack,
            rack: &[$symbol],
            share: &mut [$symbol],
        ) -> u32 {
            // SAFETY: both slices are lent for the call, the written one alone.
            unsafe {
                c::share_many(
                    layout,
                    lost_count,
                    host,
                    helper,
                    rack.as_ptr(),
                    rack.len(),
                    share.as_mut_ptr(),
                    share.len(),
                )
            }
        }

        pub fn share_add_many(
            layout: Layout,
            lost_count: u32,
            host: Rack,
            tray: Tray,
            symbols: &[$symbol],
            share: &mut [$symbol],
        ) -> u32 {
            // SAFETY: both slices are lent for the call, the written one alone.
            unsafe {
                c::share_add_many(
                    layout,
                    lost_count,
                    host,
                    tray,
                    symbols.as_ptr(),
                    symbols.len(),
                    share.as_mut_ptr(),
                    share.len(),
                )
            }
        }

        #[allow(clippy::too_many_arguments)] // a repair has as many
        pub fn repair(
            layout: Layout,
            lost: Tray,
            helpers: &[Rack],
            shares: &[$symbol],
            host: &[$symbol],
            spare: &mut [$symbol],
            first: u64,
            budget: u64,
        ) -> Repaired {
            // SAFETY: all slices are lent for the call, the written one alone; a rack is a 32-bit number.
            unsafe {
                c::repair(
                    layout,
                    lost,
                    helpers.as_ptr(),
                    helpers.len(),
                    shares.as_ptr(),
                    shares.len(),
                    host.as_ptr(),
                    host.len(),
                    spare.as_mut_ptr(),
                    spare.len(),
                    first,
                    budget,
                )
            }
        }

        #[allow(clippy::too_many_arguments)] // a repair has as many
        pub fn repair_many(
            layout: Layout,
            lost: &[Tray],
            helpers: &[Rack],
            shares: &[$symbol],
            host: &[$symbol],
            spare: &mut [$symbol],
            first: u64,
            budget: u64,
        ) -> Repaired {
            // SAFETY: all slices are lent for the call, the written one alone; trays and racks are 32-bit
            // numbers.
            unsafe {
                c::repair_many(
                    layout,
                    lost.as_ptr(),
                    lost.len(),
                    helpers.as_ptr(),
                    helpers.len(),
                    shares.as_ptr(),
                    shares.len(),
                    host.as_ptr(),
                    host.len(),
                    spare.as_mut_ptr(),
                    spare.len(),
                    first,
                    budget,
                )
            }
        }

        pub fn repair_correcting(
            layout: Layout,
            lost: Tray,
            helpers: &[Rack],
            shares: &[$symbol],
            host: &[$symbol],
            spare: &mut [$symbol],
        ) -> Corrected {
            // SAFETY: all slices are lent for the call, the written one alone; a rack is a 32-bit number.
            unsafe {
                c::repair_correcting(
                    layout,
                    lost,
                    helpers.as_ptr(),
                    helpers.len(),
                    shares.as_ptr(),
                    shares.len(),
                    host.as_ptr(),
                    host.len(),
                    spare.as_mut_ptr(),
                    spare.len(),
                )
            }
        }

        pub fn card(
            layout: Layout,
            lost: Tray,
            helpers: &[Rack],
            group: u64,
            card: &mut [$symbol],
        ) -> u32 {
            // SAFETY: both slices are lent for the call, the written one alone; a rack is a 32-bit number.
            unsafe {
                c::card(
                    layout,
                    lost,
                    helpers.as_ptr(),
                    helpers.len(),
                    group,
                    card.as_mut_ptr(),
                    card.len(),
                )
            }
        }

        pub fn card_test(
            layout: Layout,
            lost: Tray,
            helpers: &[Rack],
            card: &[$symbol],
            group: u64,
        ) -> u32 {
            // SAFETY: both slices are lent for the call; a rack is a 32-bit number.
            unsafe {
                c::card_test(
                    layout,
                    lost,
                    helpers.as_ptr(),
                    helpers.len(),
                    card.as_ptr(),
                    card.len(),
                    group,
                )
            }
        }

        #[allow(clippy::too_many_arguments)] // a repair has as many
        pub fn card_repair(
            layout: Layout,
            lost: Tray,
            helpers: &[Rack],
            card: &[$symbol],
            shares: &[$symbol],
            host: &[$symbol],
            spare: &mut [$symbol],
            group: u64,
        ) -> Repaired {
            // SAFETY: all slices are lent for the call, the written one alone; a rack is a 32-bit number.
            unsafe {
                c::card_repair(
                    layout,
                    lost,
                    helpers.as_ptr(),
                    helpers.len(),
                    card.as_ptr(),
                    card.len(),
                    shares.as_ptr(),
                    shares.len(),
                    host.as_ptr(),
                    host.len(),
                    spare.as_mut_ptr(),
                    spare.len(),
                    group,
                )
            }
        }

        #[allow(clippy::too_many_arguments)] // a read while repairing has as many
        pub fn read_part(
            layout: Layout,
            codeword: &[$symbol],
            spare: &[$symbol],
            lost: Tray,
            groups: u64,
            tray: Tray,
            first: u32,
            end: u32,
        ) -> Part {
            // SAFETY: both slices are lent for the call.
            unsafe {
                c::read_part(
                    layout,
                    codeword.as_ptr(),
                    codeword.len(),
                    spare.as_ptr(),
                    spare.len(),
                    lost,
                    groups,
                    tray,
                    first,
                    end,
                )
            }
        }

        pub fn write_image(
            layout: Layout,
            tray: Tray,
            state: u32,
            volume: u32,
            symbols: &[$symbol],
            image: &mut [u8],
        ) -> u32 {
            let (from, to) = (symbols.as_ptr(), image.as_mut_ptr());
            // SAFETY: both slices are lent for the call, the written one alone.
            unsafe {
                c::write_image(
                    layout,
                    tray,
                    state,
                    volume,
                    from,
                    symbols.len(),
                    to,
                    image.len(),
                )
            }
        }

        pub fn margin(layout: Layout, states: &[u8]) -> Margin {
            // SAFETY: the slice is lent for the call.
            unsafe { c::margin(layout, states.as_ptr(), states.len()) }
        }

        pub fn scrub_reset(layout: Layout, record: ScrubRecord) -> Scrubbed {
            // SAFETY: numbers only.
            unsafe { c::scrub_reset(layout, record) }
        }

        pub fn scrub(
            layout: Layout,
            codeword: &[$symbol],
            record: ScrubRecord,
            budget: u64,
        ) -> Scrubbed {
            // SAFETY: the slice is lent for the call.
            unsafe { c::scrub(layout, codeword.as_ptr(), codeword.len(), record, budget) }
        }

        pub fn scrub_reset_in_place(layout: Layout, record: &mut ScrubRecord) -> Reported {
            // SAFETY: the record is lent for the call.
            unsafe { c::scrub_reset_in_place(layout, record) }
        }

        pub fn scrub_in_place(
            layout: Layout,
            codeword: &[$symbol],
            record: &mut ScrubRecord,
            budget: u64,
        ) -> Reported {
            let (from, length) = (codeword.as_ptr(), codeword.len());
            // SAFETY: the slice and the record are lent for the call.
            unsafe { c::scrub_in_place(layout, from, length, record, budget) }
        }
    };
}

extern "C" {
    fn gesarumbo_checksum(start: u64, bytes: *const u8, length: usize) -> u64;
}

pub fn checksum(start: u64, bytes: &[u8]) -> u64 {
    // SAFETY: the slice is lent for the call.
    unsafe { gesarumbo_checksum(start, bytes.as_ptr(), bytes.len()) }
}

/// The first field, with symbols of one byte.
pub mod field256 {
    use super::*;

    calls!("gesarumbo", u8);
    store_batch!("gesarumbo", u8);
    share_batch!("gesarumbo", u8);
    repair_batch!("gesarumbo", u8);

    extern "C" {
        fn gesarumbo_read_image(
            layout: Layout,
            volume: u32,
            image: *const u8,
            length: usize,
        ) -> Image;
    }

    pub fn read_image(layout: Layout, volume: u32, image: &[u8]) -> Image {
        // SAFETY: the slice is lent for the call.
        unsafe { gesarumbo_read_image(layout, volume, image.as_ptr(), image.len()) }
    }
}

/// The second field, with symbols of 16 bits.
pub mod field257 {
    use super::*;

    calls!("gesarumbo257", u16);
    store_batch!("gesarumbo257", u16);
    share_batch!("gesarumbo257", u16);
    repair_batch!("gesarumbo257", u16);

    extern "C" {
        fn gesarumbo257_read_image(
            layout: Layout,
            volume: u32,
            image: *const u8,
            length: usize,
            symbols: *mut u16,
            symbols_length: usize,
        ) -> Image257;
    }

    pub fn read_image(layout: Layout, volume: u32, image: &[u8], symbols: &mut [u16]) -> Image257 {
        // SAFETY: both slices are lent for the call, the written one alone.
        unsafe {
            gesarumbo257_read_image(
                layout,
                volume,
                image.as_ptr(),
                image.len(),
                symbols.as_mut_ptr(),
                symbols.len(),
            )
        }
    }
}
