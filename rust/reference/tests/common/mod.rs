//! What the tests share.
#![allow(dead_code, unused_imports, unused_macros)] // each test file uses a part

pub mod cases;
mod dice;
pub mod sixteen;
mod tried;

pub use dice::Dice;
pub use tried::Tried;

use reference::checks::Checks;
use reference::elimination::solve;
use reference::*;

/// A test of each field from each function over any field.
macro_rules! over_both_fields {
    ($($name:ident,)*) => {
        $(mod $name {
            #[test]
            fn of_256() {
                super::$name::<reference::Field256>();
            }

            #[test]
            fn of_257() {
                super::$name::<reference::Field257>();
            }
        })*
    };
}
pub(crate) use over_both_fields;

/// The symbol of a small number.
pub fn symbol<F: Field>(number: u16) -> F::Symbol {
    number.try_into().expect("a number of the field")
}

/// Symbols that differ by seed and follow no pattern of the code's.
pub fn scattered<F: Tried>(seed: u64, length: usize) -> Vec<F::Symbol> {
    Dice::new(seed).symbols::<F>(length)
}

/// A codeword of scattered data.
pub fn codeword<F: Tried>(layout: Layout<F>, seed: u64) -> Vec<F::Symbol> {
    let numbers = layout.numbers().unwrap();
    let data = scattered::<F>(seed, numbers.dimension * numbers.layers);
    let lent = vec![F::ZERO; numbers.trays * numbers.layers];
    store(layout, &data, &lent).unwrap()
}

/// Every admissible layout.
pub fn admissible<F: Field>() -> Vec<Layout<F>> {
    let mut found = vec![];
    for racks in 0..62 {
        for size in 0..20 {
            for dimension in 0..62 {
                for helpers in 0..62 {
                    let layout = Layout::from([racks, size, dimension, helpers]);
                    found.extend(layout.numbers().is_ok().then_some(layout));
                }
            }
        }
    }
    found
}

/// A rack's symbols of a codeword.
pub fn rack_of<S: Copy>(numbers: &Numbers, codeword: &[S], rack: usize) -> Vec<S> {
    let length = numbers.size * numbers.layers;
    codeword[rack * length..(rack + 1) * length].to_vec()
}

/// A tray's symbols of a codeword.
pub fn tray_of<S: Copy>(numbers: &Numbers, codeword: &[S], tray: Tray) -> Vec<S> {
    codeword[tray.0 as usize * numbers.layers..][..numbers.layers].to_vec()
}

/// The shares of the helpers, one after another.
pub fn shares<F: Field>(
    layout: Layout<F>,
    codeword: &[F::Symbol],
    host: Rack,
    helpers: &[Rack],
) -> Vec<F::Symbol> {
    let numbers = layout.numbers().unwrap();
    let out = vec![F::ZERO; numbers.groups];
    let of_helper = |&helper: &Rack| {
        let rack = rack_of(&numbers, codeword, helper.0 as usize);
        share(layout, host, helper, &rack, &out).unwrap()
    };
    helpers.iter().flat_map(of_helper).collect()
}

/// The shares of the helpers for e lost trays, one after another.
pub fn shares_of_many<F: Field>(
    layout: Layout<F>,
    codeword: &[F::Symbol],
    lost_count: usize,
    host: Rack,
    helpers: &[Rack],
) -> Vec<F::Symbol> {
    let numbers = layout.numbers().unwrap();
    let out = vec![F::ZERO; lost_count * numbers.groups];
    let of_helper = |&helper: &Rack| {
        let rack = rack_of(&numbers, codeword, helper.0 as usize);
        share_many(layout, lost_count as u32, host, helper, &rack, &out).unwrap()
    };
    helpers.iter().flat_map(of_helper).collect()
}

/// Every choice of so many trays of a rack.
pub fn lost_lists(numbers: &Numbers, host: usize, count: usize) -> Vec<Vec<Tray>> {
    let tray = |place: usize| Tray((host * numbers.size + place) as u32);
    (0..1u32 << numbers.size)
        .filter(|set| set.count_ones() as usize == count)
        .map(|set| {
            let places = (0..numbers.size).filter(|place| set >> place & 1 == 1);
            places.map(tray).collect()
        })
        .collect()
}

/// What to add in a layer to the first r trays so that, of all checks, just one
/// sees it.
pub fn seen_by_one<F: Field>(
    checks: &Checks<F>,
    count: usize,
    layer: usize,
    seen: usize,
) -> Vec<F::Symbol> {
    let equation = |t| {
        let coefficients = (0..count).map(|tray| checks.coefficient(tray, layer, t));
        let sum = if t == seen { F::ONE } else { F::ZERO };
        coefficients.chain([sum]).collect()
    };
    solve::<F>((0..count).map(equation).collect(), count).unwrap()
}

/// Adds to a layer of the first trays of a codeword.
pub fn add_to_layer<F: Field>(
    numbers: &Numbers,
    codeword: &mut [F::Symbol],
    layer: usize,
    added: &[F::Symbol],
) {
    for (tray, &symbol) in added.iter().enumerate() {
        let at = tray * numbers.layers + layer;
        codeword[at] = F::add(codeword[at], symbol);
    }
}

/// Every choice of d racks out of the others than the host.
pub fn helper_sets(numbers: &Numbers, host: usize) -> Vec<Vec<Rack>> {
    let others: Vec<u32> = (0..numbers.racks as u32)
        .filter(|&rack| rack as usize != host)
        .collect();
    (0..1u32 << others.len())
        .filter(|set| set.count_ones() as usize == numbers.helpers)
        .map(|set| {
            let chosen = others
                .iter()
                .enumerate()
                .filter(|(at, _)| set >> at & 1 == 1);
            chosen.map(|(_, &rack)| Rack(rack)).collect()
        })
        .collect()
}
