//! A layout and the row of its numbers B, u, k, d and E, as lists, descriptions and images have it.
//! The fifth is left out where it is 0.

use gesarumbo::Layout;

/// The layout of these numbers, if they are as many as it has.
pub fn of(numbers: &[u32]) -> Option<Layout> {
    match *numbers {
        [b, u, k, d] => Some(Layout::new(b, u, k, d)),
        [b, u, k, d, e] => Some(Layout::with_errors(b, u, k, d, e)),
        _ => None,
    }
}

/// A layout's numbers, all of them.
pub fn numbers(layout: Layout) -> [u32; 5] {
    let Layout {
        racks,
        size,
        dimension,
        helpers,
        errors,
    } = layout;
    [racks, size, dimension, helpers, errors]
}

/// Its numbers as they are written.
pub fn written(layout: Layout) -> Vec<u32> {
    let mut numbers = numbers(layout).to_vec();
    if layout.errors == 0 {
        numbers.pop();
    }
    numbers
}
