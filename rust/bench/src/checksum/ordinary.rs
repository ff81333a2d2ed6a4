//! CRC-64 as xz has it in ordinary Rust, by constant tables that are worked out when it is compiled.

/// The polynomial of ECMA-182 without x^64, its bits in reverse order.
const POLYNOMIAL: u64 = 0xC96C_5795_D787_0F42;

/// What some steps make of a number.
const fn steps(mut state: u64, count: usize) -> u64 {
    let mut step = 0;
    while step < count {
        state = (state >> 1) ^ ((state & 1) * POLYNOMIAL);
        step += 1;
    }
    state
}

/// For each byte of eight what its table makes of its value.
static BYTES: [[u64; 256]; 8] = {
    let mut tables = [[0; 256]; 8];
    let mut table = 0;
    while table < 8 {
        let mut value = 0;
        while value < 256 {
            tables[table][value] = steps(value as u64, 8 * table + 8);
            value += 1;
        }
        table += 1;
    }
    tables
};

/// For each number of four bits among 64 what its table makes of its value: 2 KB, as the library's.
static NIBBLES: [[u64; 16]; 16] = {
    let mut tables = [[0; 16]; 16];
    let mut table = 0;
    while table < 16 {
        let mut value = 0;
        while value < 16 {
            tables[table][value] = steps(value as u64, 4 * table + 4);
            value += 1;
        }
        table += 1;
    }
    tables
};

/// Bit by bit, by no table.
pub fn by_bits(start: u64, bytes: &[u8]) -> u64 {
    !bytes
        .iter()
        .fold(!start, |state, &byte| steps(state ^ u64::from(byte), 8))
}

/// A byte at a time, by one table of 2 KB.
pub fn by_one_table(start: u64, bytes: &[u8]) -> u64 {
    !by_bytes(!start, bytes)
}

/// Eight bytes at a time, by eight tables: 16 KB.
pub fn by_eight_tables(start: u64, bytes: &[u8]) -> u64 {
    in_eights(start, bytes, |word| {
        let values = word.to_le_bytes();
        let pairs = values.into_iter().zip(BYTES.iter().rev());
        pairs.fold(0, |sum, (value, table)| sum ^ table[usize::from(value)])
    })
}

/// Eight bytes at a time, each as two numbers of four bits, by the library's sixteen tables: 2 KB.
pub fn by_nibble_tables(start: u64, bytes: &[u8]) -> u64 {
    in_eights(start, bytes, |word| {
        let tables = NIBBLES.iter().rev().enumerate();
        tables.fold(0, |sum, (place, table)| {
            sum ^ table[(word >> (4 * place)) as usize % 16]
        })
    })
}

/// Eight bytes at a time by a step that takes the state with the bytes added, and the rest one by one.
fn in_eights(start: u64, bytes: &[u8], step: impl Fn(u64) -> u64) -> u64 {
    let eights = bytes.chunks_exact(8);
    let rest = eights.remainder();
    let state = eights.fold(!start, |state, eight| {
        step(state ^ u64::from_le_bytes(eight.try_into().expect("eight bytes")))
    });
    !by_bytes(state, rest)
}

fn by_bytes(state: u64, bytes: &[u8]) -> u64 {
    bytes.iter().fold(state, |state, &byte| {
        BYTES[0][usize::from(state as u8 ^ byte)] ^ (state >> 8)
    })
}
