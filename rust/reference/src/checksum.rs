//! The checksum: CRC-64 as xz has it, bit by bit.

/// The polynomial of ECMA-182, its coefficients from x^63 down to 1 in the bits
/// from the lowest up.
const POLYNOMIAL: u64 = 0xC96C_5795_D787_0F42;

/// The checksum of bytes, after bytes whose checksum is `start`: 0 where there were
/// none. All bits are turned round before the first byte and after the last.
pub fn checksum(start: u64, bytes: &[u8]) -> u64 {
    let bit = |rest: u64| match rest & 1 {
        1 => rest >> 1 ^ POLYNOMIAL,
        _ => rest >> 1,
    };
    let byte = |rest: u64, byte: &u8| (0..8).fold(rest ^ u64::from(*byte), |rest, _| bit(rest));
    !bytes.iter().fold(!start, byte)
}

#[cfg(test)]
mod tests {
    use super::*;

    /// The check value that is published with this checksum, and that of nothing.
    #[test]
    fn known_values() {
        assert_eq!(checksum(0, b"123456789"), 0x995D_C9BB_DF19_39FA);
        assert_eq!(checksum(0, b""), 0);
        assert_eq!(checksum(7, b""), 7);
    }

    /// The polynomial's powers of x as ECMA-182 writes them, x^64 left out.
    #[test]
    fn the_polynomial() {
        let powers = [
            62, 57, 55, 54, 53, 52, 47, 46, 45, 40, 39, 38, 37, 35, 33, 32, 31, 29, 27, 24, 23, 22,
            21, 19, 17, 13, 12, 10, 9, 7, 4, 1, 0,
        ];
        let bits = powers.iter().map(|power| 1u64 << (63 - power));
        assert_eq!(bits.sum::<u64>(), POLYNOMIAL);
    }

    #[test]
    fn in_parts_as_in_one_go() {
        let bytes: Vec<u8> = (0..200u32).map(|at| (at * 89 + 3) as u8).collect();
        let whole = checksum(0, &bytes);
        for cut in 0..=bytes.len() {
            let (front, back) = bytes.split_at(cut);
            assert_eq!(checksum(checksum(0, front), back), whole);
        }
    }
}
