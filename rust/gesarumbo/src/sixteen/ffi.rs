//! The box's C functions. What makes each call sound is said in the crate's own `ffi`.

use crate::{Rack, Tray};

/// The answer to a repair; `refusal` is 0 where it was done.
#[repr(C)]
pub struct Repaired {
    pub refusal: u32,
    pub crossed: u32,
}

extern "C" {
    fn gesarumbo_box_store(
        data: *const u8,
        data_length: usize,
        values: *mut u8,
        values_length: usize,
    ) -> u32;
    fn gesarumbo_box_data(
        values: *const u8,
        values_length: usize,
        erased: *const Tray,
        count: usize,
        data: *mut u8,
        data_length: usize,
    ) -> u32;
    fn gesarumbo_box_recover(
        values: *mut u8,
        values_length: usize,
        erased: *const Tray,
        count: usize,
    ) -> u32;
    fn gesarumbo_box_share(
        host: Rack,
        helper: Rack,
        rack: *const u8,
        rack_length: usize,
        share: *mut u8,
        share_length: usize,
    ) -> u32;
    fn gesarumbo_box_repair(
        lost: Tray,
        helpers: *const Rack,
        count: usize,
        shares: *const u8,
        shares_length: usize,
        host: *const u8,
        host_length: usize,
        spare: *mut u8,
        spare_length: usize,
    ) -> Repaired;
}

pub fn store(data: &[u8], values: &mut [u8]) -> u32 {
    // SAFETY: both slices are lent for the call, the written one alone.
    unsafe { gesarumbo_box_store(data.as_ptr(), data.len(), values.as_mut_ptr(), values.len()) }
}

pub fn data(values: &[u8], erased: &[Tray], data: &mut [u8]) -> u32 {
    // SAFETY: the slices are lent for the call, the written one alone; a tray is a 32-bit number.
    unsafe {
        gesarumbo_box_data(
            values.as_ptr(),
            values.len(),
            erased.as_ptr(),
            erased.len(),
            data.as_mut_ptr(),
            data.len(),
        )
    }
}

pub fn recover(values: &mut [u8], erased: &[Tray]) -> u32 {
    // SAFETY: both slices are lent for the call, the written one alone; a tray is a 32-bit number.
    unsafe {
        gesarumbo_box_recover(
            values.as_mut_ptr(),
            values.len(),
            erased.as_ptr(),
            erased.len(),
        )
    }
}

pub fn share(host: Rack, helper: Rack, rack: &[u8], share: &mut [u8]) -> u32 {
    // SAFETY: both slices are lent for the call, the written one alone.
    unsafe {
        gesarumbo_box_share(
            host,
            helper,
            rack.as_ptr(),
            rack.len(),
            share.as_mut_ptr(),
            share.len(),
        )
    }
}

pub fn repair(
    lost: Tray,
    helpers: &[Rack],
    shares: &[u8],
    host: &[u8],
    spare: &mut [u8],
) -> Repaired {
    // SAFETY: the slices are lent for the call, the written one alone; a rack is a 32-bit number.
    unsafe {
        gesarumbo_box_repair(
            lost,
            helpers.as_ptr(),
            helpers.len(),
            shares.as_ptr(),
            shares.len(),
            host.as_ptr(),
            host.len(),
            spare.as_mut_ptr(),
            spare.len(),
        )
    }
}
