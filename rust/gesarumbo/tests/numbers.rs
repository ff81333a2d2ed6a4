//! The numbers of every admissible layout, held against one another.

use gesarumbo::{field257, measure, numbers, Layout, Measured, Numbers, Refusal};

/// The most trays of an admissible layout.
const MOST: u32 = 60;

/// A field's two calls for the numbers of a layout.
struct Field {
    measure: fn(Layout) -> Result<Measured, Refusal>,
    numbers: fn(Layout) -> Result<Numbers, Refusal>,
    sizes: [u32; 5],
}

const FIELDS: [Field; 2] = [
    Field {
        measure,
        numbers,
        sizes: [1, 3, 5, 15, 17],
    },
    Field {
        measure: field257::measure,
        numbers: field257::numbers,
        sizes: [1, 2, 4, 8, 16],
    },
];

/// Every layout with racks of these sizes that may be admissible, and some beside them.
fn layouts(sizes: [u32; 5]) -> impl Iterator<Item = Layout> {
    let racks = sizes
        .into_iter()
        .flat_map(|size| (1..=MOST / size + 1).map(move |racks| (racks, size)));
    racks.flat_map(|(racks, size)| {
        (0..=racks * size).flat_map(move |dimension| {
            (0..=racks).flat_map(move |helpers| {
                (0..=2).map(move |e| Layout::with_errors(racks, size, dimension, helpers, e))
            })
        })
    })
}

fn agree(layout: Layout, measured: Measured, numbers: Numbers) {
    let [racks, size, dimension, helpers, errors] = [
        layout.racks,
        layout.size,
        layout.dimension,
        layout.helpers,
        layout.errors,
    ]
    .map(|number| number as usize);
    assert_eq!(numbers.layout, layout);
    assert_eq!((numbers.racks, numbers.size), (racks, size));
    assert_eq!(
        (numbers.dimension, numbers.helpers, numbers.errors),
        (dimension, helpers, errors)
    );
    assert_eq!(numbers.trays, racks * size);
    assert_eq!(numbers.checks + dimension, numbers.trays);
    assert_eq!(numbers.whole * size + numbers.part, dimension);
    assert!(numbers.part < size);
    assert_eq!(numbers.parity_racks + numbers.whole, racks);
    assert_eq!(numbers.digits + numbers.whole + 2 * errors, helpers + 1);
    assert_eq!(numbers.digits.pow(layout.racks), numbers.layers);
    assert_eq!(numbers.groups * numbers.digits, numbers.layers);
    assert_eq!(numbers.groups * helpers, numbers.traffic);
    let of = [numbers.layers, numbers.checks, numbers.traffic];
    let answered = [measured.layers, measured.checks, measured.traffic];
    assert_eq!(of, answered.map(|number| number as usize));
}

#[test]
fn the_numbers_of_every_layout_agree() {
    for field in FIELDS {
        let mut admissible = 0;
        for layout in layouts(field.sizes) {
            match ((field.measure)(layout), (field.numbers)(layout)) {
                (Ok(measured), Ok(numbers)) => agree(layout, measured, numbers),
                (Err(_), Err(refusal)) => {
                    assert_eq!(refusal, Refusal::Layout);
                    continue;
                }
                (measured, numbers) => panic!("{layout}: {measured:?}, {numbers:?}"),
            }
            admissible += 1;
        }
        assert!(admissible > 1000, "{admissible} layouts are admissible");
    }
}

#[test]
fn no_other_numbers_overflow() {
    for number in [0, 1, 1 << 16, u32::MAX] {
        let layout = Layout::with_errors(number, number, number, number, number);
        assert_eq!(numbers(layout), Err(Refusal::Layout));
        assert_eq!(field257::numbers(layout), Err(Refusal::Layout));
    }
}
