//! The conditions of an admissible layout, one by one, for any five 32-bit numbers.

use crate::code::field::Field;
use crate::code::layout;
use gesarumbo::Layout;
use std::fmt;

pub const MOST_TRAYS: u64 = 60;
const MOST_LAYERS: u64 = 4096;

/// Whether a condition holds. It is unknown where another condition's failure leaves a number in
/// it without a meaning.
#[derive(Clone, Copy, PartialEq, Eq, Debug)]
pub enum Verdict {
    Holds,
    Fails,
    Unknown,
}

impl From<bool> for Verdict {
    fn from(holds: bool) -> Verdict {
        match holds {
            true => Verdict::Holds,
            false => Verdict::Fails,
        }
    }
}

/// One condition of an admissible layout.
pub struct Condition {
    /// The condition, as documents 01 and 02 write it.
    pub rule: &'static str,
    /// What it asks for, in words.
    pub meaning: &'static str,
    /// The numbers it is about, in this layout.
    pub here: String,
    pub verdict: Verdict,
}

impl fmt::Display for Condition {
    fn fmt(&self, out: &mut fmt::Formatter<'_>) -> fmt::Result {
        let Condition {
            rule,
            meaning,
            here,
            ..
        } = self;
        write!(out, "{here}, needed is {rule} ({meaning})")
    }
}

/// All conditions of a layout in a field, in document 01's order, with that of E before the two
/// that go by it.
pub fn conditions(layout: Layout, field: Field) -> [Condition; 9] {
    let [b, u, k, d, e] = layout::numbers(layout).map(u64::from);
    [
        enough_racks(b),
        rack_size(u, field),
        few_trays(b, u),
        enough_data(u, k),
        enough_parity(b, u, k),
        few_errors(e),
        enough_helpers(u, k, d, e),
        other_racks(b, d),
        few_layers(b, u, k, d, e),
    ]
}

fn enough_racks(b: u64) -> Condition {
    Condition {
        rule: "B >= 2",
        meaning: "two racks or more",
        here: format!("B = {b}"),
        verdict: (b >= 2).into(),
    }
}

fn rack_size(u: u64, field: Field) -> Condition {
    let (rule, meaning, sizes) = match field {
        Field::Of256 => (
            "u = 1, 3, 5, 15 or 17",
            "a rack size that divides 255",
            [1, 3, 5, 15, 17],
        ),
        Field::Of257 => (
            "u = 1, 2, 4, 8 or 16",
            "a rack size that divides 256",
            [1, 2, 4, 8, 16],
        ),
    };
    Condition {
        rule,
        meaning,
        here: format!("u = {u}"),
        verdict: sizes.contains(&u).into(),
    }
}

fn few_trays(b: u64, u: u64) -> Condition {
    let n = b * u;
    Condition {
        rule: "n <= 60",
        meaning: "60 trays or fewer",
        here: format!("n = {b}*{u} = {n}"),
        verdict: (n <= MOST_TRAYS).into(),
    }
}

fn enough_data(u: u64, k: u64) -> Condition {
    Condition {
        rule: "u <= k",
        meaning: "a rack's worth of data or more",
        here: format!("u = {u}, k = {k}"),
        verdict: (u <= k).into(),
    }
}

fn enough_parity(b: u64, u: u64, k: u64) -> Condition {
    let parity = i128::from(b * u) - i128::from(k);
    Condition {
        rule: "u <= n - k",
        meaning: "a rack's worth of parity or more",
        here: format!("u = {u}, n - k = {parity}"),
        verdict: (i128::from(u) <= parity).into(),
    }
}

fn few_errors(e: u64) -> Condition {
    Condition {
        rule: "E = 0 or 1",
        meaning: "at most one wrong share",
        here: format!("E = {e}"),
        verdict: (e <= 1).into(),
    }
}

/// An E above 1 has no meaning.
fn enough_helpers(u: u64, k: u64, d: u64, e: u64) -> Condition {
    let (rule, meaning) = match e {
        0 => ("K <= d", "a helper for each whole rack in k"),
        _ => ("K + 2 <= d", "two helpers more than whole racks in k"),
    };
    let (here, verdict) = match k.checked_div(u) {
        Some(whole) if e <= 1 => {
            let enough = whole + 2 * e <= d;
            (format!("K = {whole}, d = {d}"), enough.into())
        }
        Some(whole) => (format!("K = {whole}, d = {d}"), Verdict::Unknown),
        None => ("u = 0".to_string(), Verdict::Unknown),
    };
    Condition {
        rule,
        meaning,
        here,
        verdict,
    }
}

fn other_racks(b: u64, d: u64) -> Condition {
    Condition {
        rule: "d <= B - 1",
        meaning: "helpers are other racks",
        here: format!("B = {b}, d = {d}"),
        verdict: (d < b).into(),
    }
}

/// L has a meaning only when E is 0 or 1 and there are helpers enough.
fn few_layers(b: u64, u: u64, k: u64, d: u64, e: u64) -> Condition {
    let base = k
        .checked_div(u)
        .and_then(|whole| (d + 1).checked_sub(whole + 2 * e));
    let (here, verdict) = match base.filter(|base| *base > 0 && e <= 1) {
        Some(base) => {
            let layers = power(base, b);
            let value = layers.map_or(String::new(), |layers| format!(" = {layers}"));
            let few = layers.is_some_and(|layers| layers <= MOST_LAYERS);
            (format!("L = {base}^{b}{value}"), few.into())
        }
        None => ("L has no meaning".to_string(), Verdict::Unknown),
    };
    Condition {
        rule: "L <= 4,096",
        meaning: "4,096 layers or fewer",
        here,
        verdict,
    }
}

/// The power of a number above zero, if it fits 64 bits.
fn power(base: u64, exponent: u64) -> Option<u64> {
    match base {
        1 => Some(1),
        _ => base.checked_pow(u32::try_from(exponent).ok()?),
    }
}

#[cfg(test)]
mod tests {
    use super::{conditions, Verdict};
    use crate::code::field::Field;
    use crate::code::layout;

    /// Whether the conditions admit a layout, which the library must say too.
    fn admitted(numbers: [u32; 5], field: Field) -> bool {
        let layout = layout::of(&numbers).expect("it has five numbers");
        let conditions = conditions(layout, field);
        let admitted = conditions
            .iter()
            .all(|condition| condition.verdict == Verdict::Holds);
        let numbers = field.numbers(layout);
        assert_eq!(admitted, numbers.is_ok(), "{}", field.named(layout));
        admitted
    }

    /// How many layouts a field admits, of these rack sizes and with this E.
    fn count(field: Field, sizes: &[u32], errors: u32) -> u32 {
        let mut count = 0;
        for racks in 0..=62 {
            for &size in sizes {
                for dimension in 0..=62 {
                    for helpers in 0..=62 {
                        let numbers = [racks, size, dimension, helpers, errors];
                        count += u32::from(admitted(numbers, field));
                    }
                }
            }
        }
        count
    }

    #[test]
    fn conditions_agree_with_the_library() {
        for (errors, of_256, of_257) in [(0, 3344, 3849), (1, 2703, 3146)] {
            let bytes = count(Field::Of256, &[0, 1, 2, 3, 5, 15, 16, 17], errors);
            assert_eq!(bytes, of_256, "as many layouts are admissible");
            let modulo_257 = count(Field::Of257, &[0, 1, 2, 3, 4, 8, 16, 17], errors);
            assert_eq!(modulo_257, of_257, "as many layouts are admissible");
        }
    }

    /// Products and powers that wrap in 32 or 64 bits.
    #[test]
    fn wide_numbers_are_not_admitted() {
        let most = u32::MAX;
        let wide = [
            [1_431_655_768, 3, 3, 1, 0],
            [32, 1, 1, 4, 0],
            [32, 1, 1, 6, 1],
            [16, 1, 1, 4, 0],
            [4, 3, 8 + 256, 3, 0],
            [4, 1, 1, 3, 2],
            [4, 3, 8, 3, 256],
            [4, 3, 8, 3, 1 << 31],
            [most, 1, 1, most - 1, 0],
            [most, most, most, most, most],
        ];
        for layout in wide {
            assert!(!admitted(layout, Field::Of256));
            assert!(!admitted(layout, Field::Of257));
        }
    }

    /// Each condition can be the only one that fails, but for B >= 2, which u <= k and
    /// u <= n - k imply.
    #[test]
    fn conditions_fail_alone() {
        let alone = [
            (1, &[2, 2, 2, 1][..], Field::Of256),
            (1, &[2, 3, 3, 1], Field::Of257),
            (2, &[4, 17, 17, 1], Field::Of256),
            (2, &[4, 16, 16, 1], Field::Of257),
            (3, &[2, 1, 0, 0], Field::Of256),
            (4, &[2, 3, 4, 1], Field::Of256),
            (4, &[2, 4, 5, 1], Field::Of257),
            (5, &[4, 1, 1, 3, 2], Field::Of257),
            (6, &[4, 1, 1, 2, 1], Field::Of256),
            (7, &[2, 1, 1, 2], Field::Of257),
            (7, &[4, 1, 2, 4, 1], Field::Of257),
            (8, &[7, 1, 1, 4], Field::Of257),
            (8, &[13, 1, 9, 12, 1], Field::Of256),
        ];
        for (place, numbers, field) in alone {
            let layout = layout::of(numbers).expect("it has four or five numbers");
            let conditions = conditions(layout, field);
            for (other, condition) in conditions.iter().enumerate() {
                let fails = condition.verdict == Verdict::Fails;
                assert_eq!(
                    fails,
                    other == place,
                    "{}: {}",
                    condition.rule,
                    condition.here
                );
            }
        }
    }
}
