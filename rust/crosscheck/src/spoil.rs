//! Making a good case a refused or a boundary one, for any call: one input at a
//! time is changed by its kind.

use crate::cabinet::Cabinet;
use crate::field::{Field, Symbol};
use crate::inputs::{Inputs, Value};
use crate::random::Random;
use crate::source::{Source, EITHER};

/// Changes one input, or several where more grounds shall stand together.
pub fn spoil(source: &mut Source, cabinet: &Cabinet, inputs: &mut Inputs, times: usize) {
    for _ in 0..times {
        let at = source.random.below(inputs.values.len());
        match &mut inputs.values[at] {
            Value::Layout(layout) => spoil_layout(source, cabinet.field, layout),
            Value::Small(number) => {
                *number = number_near(&mut source.random, cabinet, u64::from(*number), 32) as u32
            }
            Value::Wide(number) => *number = number_near(&mut source.random, cabinet, *number, 64),
            Value::List(list) => spoil_list(&mut source.random, cabinet, list),
            Value::Record(record) => spoil_record(&mut source.random, cabinet, record),
            Value::Bytes(bytes) => spoil_bytes(&mut source.random, cabinet, bytes),
            Value::Symbols(symbols) => spoil_symbols(&mut source.random, cabinet, symbols),
        }
    }
}

fn spoil_layout(source: &mut Source, field: Field, layout: &mut [u32; 5]) {
    let random = &mut source.random;
    let at = random.below(5);
    match random.below(8) {
        0 | 1 => layout[at] = layout[at].wrapping_add(random.pick(&[1, u32::MAX])),
        2 => layout[at] = random.pick(&[0, u32::MAX]),
        3 => layout[at] = layout[at].wrapping_add(random.pick(&[1 << 8, 1 << 16, 1 << 31])),
        4 => *layout = wrapping_trays(random, field),
        5 => *layout = many_layers(random),
        6 => {
            *layout = [(); 5].map(|()| random.below(20) as u32);
            layout[4] = errors(random);
        }
        _ => *layout = source.cabinet(EITHER).layout,
    }
}

/// A number E, mostly one of the two that can be.
fn errors(random: &mut Random) -> u32 {
    random.pick(&[0, 0, 1, 1, 2])
}

/// A layout whose number of trays is small in 32 bits only.
fn wrapping_trays(random: &mut Random, field: Field) -> [u32; 5] {
    let size: u32 = random.pick(&field.rack_sizes()[1..]);
    let racks = match field {
        Field::Of256 => {
            // Newton's steps to the inverse of an odd number in 32 bits.
            let inverse = (0..5).fold(size, |near, _| {
                near.wrapping_mul(2u32.wrapping_sub(size.wrapping_mul(near)))
            });
            inverse.wrapping_mul(2 + random.below(47) as u32)
        }
        // The size is a power of 2, and 2^32 trays are none.
        Field::Of257 => (u32::MAX / size + 1) + 1 + random.below(3) as u32,
    };
    let dimension = size + random.below(4) as u32;
    let helpers = 1 + random.below(3) as u32;
    [racks, size, dimension, helpers, errors(random)]
}

/// A layout whose number of layers may be small in 32 or 64 bits only.
fn many_layers(random: &mut Random) -> [u32; 5] {
    [
        random.pick(&[8, 11, 16, 22, 32, 48]),
        1,
        1,
        random.pick(&[2, 3, 4, 8, 16]),
        errors(random),
    ]
}

/// Numbers of a layout that something is measured by.
fn landmarks(cabinet: &Cabinet) -> [usize; 13] {
    let numbers = &cabinet.numbers;
    [
        0,
        2,
        numbers.racks,
        numbers.size,
        numbers.helpers,
        numbers.trays,
        numbers.checks,
        numbers.base,
        numbers.groups,
        numbers.most_lost(),
        numbers.layers,
        numbers.helpers * numbers.groups,
        256,
    ]
}

/// A number of so many bits: near a landmark, near the one there, equal to it
/// in its low bits only, or an end.
fn number_near(random: &mut Random, cabinet: &Cabinet, number: u64, bits: u32) -> u64 {
    let step = random.pick(&[0, 1, u64::MAX]);
    let high = 1 << random.pick(&[8, 16, bits / 2, bits - 1]);
    let near = match random.below(5) {
        0 | 1 => (random.pick(&landmarks(cabinet)) as u64).wrapping_add(step),
        2 => number.wrapping_add(step),
        3 => number.wrapping_add(high),
        _ => random.pick(&[0, u64::MAX, u64::MAX - 1, 1 << (bits - 1)]),
    };
    near & (u64::MAX >> (64 - bits))
}

fn spoil_list(random: &mut Random, cabinet: &Cabinet, list: &mut Vec<u32>) {
    let length = list.len();
    let at = random.below(length + 1);
    match random.below(9) {
        0 => list.insert(at, random.below(cabinet.numbers.trays) as u32),
        1 => *list = redrawn(random, cabinet),
        2 => *list = long(random, cabinet),
        3 => list.reverse(),
        4 => list.push(list.last().map_or(0, |last| last.wrapping_add(1))),
        _ if at == length => list.clear(),
        5 => drop(list.remove(at)),
        6 => list.insert(at, list[at]),
        7 => list.swap(at, length - 1),
        _ => list[at] = number_near(random, cabinet, u64::from(list[at]), 32) as u32,
    }
}

/// One of the three numbers is moved, or all stand close together.
fn spoil_record(random: &mut Random, cabinet: &Cabinet, record: &mut [u32; 3]) {
    if random.one_in(3) {
        let base = random.pick(&[0, cabinet.numbers.layers as u32]);
        *record = [(); 3].map(|()| base.wrapping_add(random.pick(&[0, 1, 2, u32::MAX])));
    } else {
        let at = random.below(3);
        record[at] = number_near(random, cabinet, u64::from(record[at]), 32) as u32;
    }
}

/// A rising list of any number of racks or trays.
fn redrawn(random: &mut Random, cabinet: &Cabinet) -> Vec<u32> {
    let below = random.pick(&[cabinet.numbers.racks, cabinet.numbers.trays]);
    let count = random.below(below + 1);
    random.some_of(count, (0..below as u32).collect())
}

/// A list longer than there are trays: rising past them, or with equal entries.
fn long(random: &mut Random, cabinet: &Cabinet) -> Vec<u32> {
    let length = cabinet.numbers.trays + 1 + random.below(300);
    let most = if random.one_in(2) {
        length
    } else {
        cabinet.numbers.racks
    };
    (0..length as u32)
        .map(|entry| entry.min(most as u32 - 1))
        .collect()
}

/// Another length, near the one there.
fn other_length(random: &mut Random, cabinet: &Cabinet, length: usize) -> usize {
    let step = random.pick(&landmarks(cabinet));
    match random.below(5) {
        0 => length + 1,
        1 => length.saturating_sub(1),
        2 => length + step,
        3 => length.saturating_sub(step),
        _ => step,
    }
}

/// Another length, or one place changed: to the least or the greatest symbol, to
/// one near, to any, or to a number that is none. Where there are such numbers,
/// the place is changed more often than the length.
fn spoil_symbols(random: &mut Random, cabinet: &Cabinet, symbols: &mut Vec<Symbol>) {
    let (length, count) = (symbols.len(), cabinet.field.symbols() as Symbol);
    let one_in = match cabinet.field {
        Field::Of256 => 2,
        Field::Of257 => 4,
    };
    if length == 0 || random.one_in(one_in) {
        let new = other_length(random, cabinet, length);
        symbols.resize(new, random.lendable(cabinet.field));
    } else {
        let at = random.place(length);
        let old = symbols[at];
        let near = [old.saturating_add(1), old.saturating_sub(1)].map(|near| near.min(count - 1));
        let any = random.lendable(cabinet.field);
        symbols[at] = random.pick(&[0, 1, count - 1, near[0], near[1], any, any, any]);
    }
}

/// Another length, or one byte changed, in the front half of the time.
fn spoil_bytes(random: &mut Random, cabinet: &Cabinet, bytes: &mut Vec<u8>) {
    let length = bytes.len();
    if length == 0 || random.one_in(2) {
        let new = other_length(random, cabinet, length);
        bytes.resize(new, random.byte());
    } else {
        let headed = random.one_in(2);
        let at = random.below(if headed { length.min(24) } else { length });
        let old = bytes[at];
        let values = [
            0,
            1,
            2,
            3,
            255,
            old.wrapping_add(1),
            old.wrapping_sub(1),
            random.byte(),
        ];
        bytes[at] = random.pick(&values);
    }
}

#[cfg(test)]
mod tests {
    use super::*;
    use crate::field::FIELDS;

    #[test]
    fn trays_that_wrap_are_few_in_32_bits_only() {
        let mut random = Random::new(9);
        for field in FIELDS {
            let mut wrapped = 0;
            for _ in 0..1000 {
                let [racks, size, ..] = wrapping_trays(&mut random, field);
                assert!((2..=48).contains(&racks.wrapping_mul(size)));
                wrapped += u32::from(u64::from(racks) * u64::from(size) > 48);
            }
            assert!(wrapped > 500);
        }
    }

    #[test]
    fn a_spoilt_number_keeps_its_width() {
        let mut random = Random::new(10);
        let cabinet = Cabinet::named(Field::Of256, [4, 3, 8, 3, 0]);
        let near = |random: &mut Random, bits| number_near(random, &cabinet, 5, bits);
        assert!((0..1000).all(|_| near(&mut random, 32) <= u64::from(u32::MAX)));
        assert!((0..1000).any(|_| near(&mut random, 64) == u64::MAX));
    }
}
