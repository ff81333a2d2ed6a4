//! The checksum of bytes cut into parts is that of all of them in one go, and one
//! flipped bit, or any run of up to 64 bits, gives another.

use super::Draw;
use crate::calls::checksum;
use crate::crosscheck::Crosscheck;

pub const DRAW: Draw = Draw {
    name: "checksums in parts",
    gate: 6_000,
    short: 60,
    case,
};

fn case(all: &mut Crosscheck) {
    let random = &mut all.source.random;
    let length = 1 + random.below(600);
    let bytes = checksum::some_bytes(random, length);
    let start = random.pick(&[0, 0, 1, u64::MAX]);
    let whole = all
        .run
        .compare(&checksum::CALL, &checksum::inputs(start, bytes.clone()));
    let (mut sum, mut from) = (start, 0);
    while from < length {
        let end = from + all.source.random.below(length - from + 1);
        let part = checksum::inputs(sum, bytes[from..end].to_vec());
        sum = all.run.compare(&checksum::CALL, &part).numbers[0] as u64;
        from = end;
    }
    all.run.claim(whole.numbers == [i128::from(sum)], || {
        format!("checksum in parts of {bytes:?} from {start}: {sum}, not {whole}")
    });
    let mut changed = bytes.clone();
    let random = &mut all.source.random;
    let at = random.below(length);
    changed[at] ^= 1 << random.below(8);
    let run = random.below(8).min(length - at - 1);
    (1..=run).for_each(|step| changed[at + step] ^= random.byte());
    let other = all
        .run
        .compare(&checksum::CALL, &checksum::inputs(start, changed));
    all.run.claim(other.numbers != whole.numbers, || {
        format!("checksum of {bytes:?} with a change at {at}: {other}")
    });
}
