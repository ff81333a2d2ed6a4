//! The points of the sixteen trays.

use super::field::{power, ROOT};
use super::SIZE;

/// What y is raised to for each tray's point, as document 02 writes them, rack
/// after rack; the first point is 0 and no power.
const EXPONENTS: [[Option<usize>; SIZE]; 4] = [
    [None, Some(0), Some(5), Some(10)],
    [Some(1), Some(2), Some(4), Some(8)],
    [Some(6), Some(7), Some(9), Some(13)],
    [Some(3), Some(11), Some(12), Some(14)],
];

/// The point of a tray.
pub fn point(tray: usize) -> u8 {
    EXPONENTS[tray / SIZE][tray % SIZE].map_or(0, |exponent| power(ROOT, exponent))
}

/// The points of a rack.
pub fn points_of(rack: usize) -> [u8; SIZE] {
    [0, 1, 2, 3].map(|place| point(SIZE * rack + place))
}

/// h(x) = x + x^4, which is the same at all points of a rack.
pub fn h(point: u8) -> u8 {
    point ^ power(point, 4)
}

#[cfg(test)]
mod tests {
    use super::*;

    #[test]
    fn every_symbol_is_one_trays_point() {
        let mut points: Vec<u8> = (0..16).map(point).collect();
        points.sort_unstable();
        assert_eq!(points, (0..16).collect::<Vec<u8>>());
    }

    /// Source 003: U, y + U, y^6 + U and y^3 + U for the kernel U of h, and h is
    /// 0, 1, y^5 and y^10 there.
    #[test]
    fn the_racks_are_sorted_by_h() {
        let kernel = points_of(0);
        for (rack, (shift, of_h)) in [
            (0, 0),
            (ROOT, 1),
            (power(ROOT, 6), power(ROOT, 5)),
            (power(ROOT, 3), power(ROOT, 10)),
        ]
        .into_iter()
        .enumerate()
        {
            let mut points = points_of(rack);
            assert!(points.iter().all(|&point| h(point) == of_h));
            let mut shifted = kernel.map(|point| shift ^ point);
            points.sort_unstable();
            shifted.sort_unstable();
            assert_eq!(points, shifted);
        }
    }
}
