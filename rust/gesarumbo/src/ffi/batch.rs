//! The C functions for many codewords, each as a macro that makes its safe function for one field:
//! the C function with this prefix over symbols of this type.

macro_rules! store_batch {
    ($prefix:literal, $symbol:ty) => {
        pub fn store_batch(
            layout: Layout,
            many: usize,
            data: &[$symbol],
            codewords: &mut [$symbol],
        ) -> u32 {
            extern "C" {
                #[link_name = concat!($prefix, "_store_batch")]
                fn call(
                    layout: Layout,
                    many: usize,
                    data: *const $symbol,
                    data_length: usize,
                    codewords: *mut $symbol,
                    length: usize,
                ) -> u32;
            }
            let (from, from_length) = (data.as_ptr(), data.len());
            let (to, to_length) = (codewords.as_mut_ptr(), codewords.len());
            // SAFETY: both slices are lent for the call, the written one alone.
            unsafe { call(layout, many, from, from_length, to, to_length) }
        }
    };
}

macro_rules! share_batch {
    ($prefix:literal, $symbol:ty) => {
        pub fn share_batch(
            layout: Layout,
            many: usize,
            host: Rack,
            helper: Rack,
            rack: &[$symbol],
            share: &mut [$symbol],
        ) -> u32 {
            extern "C" {
                #[link_name = concat!($prefix, "_share_batch")]
                fn call(
                    layout: Layout,
                    many: usize,
                    host: Rack,
                    helper: Rack,
                    rack: *const $symbol,
                    rack_length: usize,
                    share: *mut $symbol,
                    share_length: usize,
                ) -> u32;
            }
            let (from, from_length) = (rack.as_ptr(), rack.len());
            let (to, to_length) = (share.as_mut_ptr(), share.len());
            // SAFETY: both slices are lent for the call, the written one alone; a rack is a 32-bit number.
            unsafe { call(layout, many, host, helper, from, from_length, to, to_length) }
        }
    };
}

macro_rules! repair_batch {
    ($prefix:literal, $symbol:ty) => {
        #[allow(clippy::too_many_arguments)] // a repair has as many
        pub fn repair_batch(
            layout: Layout,
            many: usize,
            lost: Tray,
            helpers: &[Rack],
            shares: &[$symbol],
            host: &[$symbol],
            spare: &mut [$symbol],
            first: u64,
            budget: u64,
        ) -> Repaired {
            extern "C" {
                #[link_name = concat!($prefix, "_repair_batch")]
                fn call(
                    layout: Layout,
                    many: usize,
                    lost: Tray,
                    helpers: *const Rack,
                    count: usize,
                    shares: *const $symbol,
                    shares_length: usize,
                    host: *const $symbol,
                    host_length: usize,
                    spare: *mut $symbol,
                    spare_length: usize,
                    first: u64,
                    budget: u64,
                ) -> Repaired;
            }
            // SAFETY: all slices are lent for the call, the written one alone; a rack is a 32-bit number.
            unsafe {
                call(
                    layout,
                    many,
                    lost,
                    helpers.as_ptr(),
                    helpers.len(),
                    shares.as_ptr(),
                    shares.len(),
                    host.as_ptr(),
                    host.len(),
                    spare.as_mut_ptr(),
                    spare.len(),
                    first,
                    budget,
                )
            }
        }
    };
}
