//! The checksum.

use crate::ffi;

/// The CRC-64 of the bytes, as xz has it (ECMA-182, reflected), so that outside tools agree.
///
/// `start` is 0, or the checksum of the bytes before these: bytes may be cut anywhere, and their
/// checksum is the same in parts as in one go. It finds accidents and no ill will, and two
/// different runs of bytes may have the same one.
///
/// ```
/// use gesarumbo::checksum;
///
/// assert_eq!(checksum(0, b"123456789"), 0x995D_C9BB_DF19_39FA);
/// assert_eq!(checksum(checksum(0, b"1234"), b"56789"), 0x995D_C9BB_DF19_39FA);
/// assert_eq!(checksum(0, b""), 0);
/// ```
pub fn checksum(start: u64, bytes: &[u8]) -> u64 {
    ffi::checksum(start, bytes)
}
