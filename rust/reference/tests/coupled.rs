//! Source 004's constructions over the fields that the library has, as docs/COMPARISON.md speaks of
//! them: the conditions under which they are codes.

use reference::{Field, Field256, Field257};

/// A coupled code: so many racks in a row share a digit.
struct Coupled {
    size: usize,
    base: usize,
    together: usize,
    /// The exponents of a rack's points at place 0, one for each digit.
    exponents: Vec<Vec<usize>>,
}

type Matrix<F> = Vec<Vec<<F as Field>::Symbol>>;

/// The powers of the root.
fn powers<F: Field>() -> Vec<F::Symbol> {
    let next = |power: &F::Symbol| Some(F::multiply(*power, F::ROOT));
    let all = std::iter::successors(Some(F::ONE), next);
    all.take(F::ORDER).collect()
}

/// Whether rows and columns are as many and determine each other.
fn is_invertible<F: Field>(mut rows: Matrix<F>) -> bool {
    for at in 0..rows.len() {
        assert_eq!(rows[at].len(), rows.len());
        let Some(pivot) = (at..rows.len()).find(|&row| rows[row][at] != F::ZERO) else {
            return false;
        };
        rows.swap(at, pivot);
        let own = rows[at].clone();
        let inverse = F::inverse(own[at]);
        for row in &mut rows[at + 1..] {
            let factor = F::multiply(row[at], inverse);
            for (value, &of_own) in row.iter_mut().zip(&own) {
                *value = F::subtract(*value, F::multiply(factor, of_own));
            }
        }
    }
    true
}

impl Coupled {
    /// With document 01's points.
    fn consecutive(racks: usize, size: usize, base: usize, together: usize) -> Coupled {
        let of_rack = |rack| (0..base).map(|digit| rack * base + digit).collect();
        Coupled {
            size,
            base,
            together,
            exponents: (0..racks).map(of_rack).collect(),
        }
    }

    /// The exponent of the point of a tray and a digit.
    fn exponent<F: Field>(&self, tray: usize, digit: usize) -> usize {
        let (rack, place) = (tray / self.size, tray % self.size);
        self.exponents[rack][digit] + place * (F::ORDER / self.size)
    }

    /// How the layer with a digit takes part in the checks of the one with digit `of`, for a rack
    /// among those that share it: as itself, or less where `of` is the rack's own (004, (9)); the
    /// rack after the first s has none of its own (004, (10)).
    fn part<F: Field>(&self, rack: usize, of: usize, digit: usize) -> F::Symbol {
        match of {
            _ if of == digit => F::ONE,
            _ if of == rack % self.together => F::negate(F::ONE),
            _ => F::ZERO,
        }
    }

    /// The code of the first racks that share a digit, and that of their u-th powers, in which a rack
    /// is a tray.
    fn local(&self) -> [Coupled; 2] {
        let first = &self.exponents[..self.together];
        let of_rack = |digits: &Vec<usize>| digits.iter().map(|e| e * self.size).collect();
        let of = |size, exponents| Coupled {
            size,
            exponents,
            ..*self
        };
        [
            of(self.size, first.to_vec()),
            of(1, first.iter().map(of_rack).collect()),
        ]
    }

    /// Whether (40) and (53), or (77) and (81), hold for the first racks that share a digit, and of how
    /// many determinants.
    fn holds<F: Field>(&self) -> (bool, usize) {
        let powers = powers::<F>();
        let all = |code: Coupled| {
            let sets = sets(code.exponents.len() * code.size);
            let fits = sets.map(|trays| code.determines::<F>(&powers, &trays));
            fits.collect::<Vec<bool>>()
        };
        let fitting = self.local().map(all).concat();
        (fitting.iter().all(|&fits| fits), fitting.len())
    }

    /// Whether as many checks as there are trays determine these trays in all layers.
    fn determines<F: Field>(&self, powers: &[F::Symbol], trays: &[usize]) -> bool {
        is_invertible::<F>(self.checks::<F>(powers, trays))
    }

    fn layers(&self) -> usize {
        self.base
            .pow(self.exponents.len().div_ceil(self.together) as u32)
    }

    /// The digit that a rack shares, of a layer; and the layer without it.
    fn split(&self, rack: usize, layer: usize) -> (usize, usize) {
        let weight = self.base.pow((rack / self.together) as u32);
        let digit = layer / weight % self.base;
        (digit, layer - digit * weight)
    }

    /// The checks of all layers, over these trays only.
    fn checks<F: Field>(&self, powers: &[F::Symbol], trays: &[usize]) -> Matrix<F> {
        let layers = self.layers();
        let entry = |check: usize, column: usize| {
            let (layer, t) = (check / trays.len(), check % trays.len());
            let (tray, other) = (trays[column / layers], column % layers);
            let rack = tray / self.size;
            let [(of, rest), (digit, same)] = [layer, other].map(|at| self.split(rack, at));
            let exponent = t * self.exponent::<F>(tray, digit) % F::ORDER;
            match rest == same {
                true => F::multiply(self.part::<F>(rack, of, digit), powers[exponent]),
                false => F::ZERO,
            }
        };
        let count = trays.len() * layers;
        let row = |check| (0..count).map(|column| entry(check, column)).collect();
        (0..count).map(row).collect()
    }
}

/// Every set of some of so many, but the empty one.
fn sets(count: usize) -> impl Iterator<Item = Vec<usize>> {
    let members = move |set: usize| (0..count).filter(|at| set >> at & 1 == 1).collect();
    (1..1usize << count).map(members)
}

#[test]
fn document_01s_points_do_for_the_first_construction() {
    let of_three = Coupled::consecutive(4, 3, 2, 2);
    assert_eq!(of_three.holds::<Field256>(), (true, 66));
    let of_four = Coupled::consecutive(5, 4, 2, 2);
    assert_eq!(of_four.holds::<Field257>(), (true, 258));
}

#[test]
fn other_points_do_for_the_second() {
    let mut of_three = Coupled::consecutive(3, 3, 2, 3);
    assert_eq!(of_three.holds::<Field256>(), (false, 518));
    of_three.exponents = vec![vec![78, 66], vec![77, 0], vec![22, 82]];
    assert_eq!(of_three.holds::<Field256>(), (true, 518));
    let mut of_four = Coupled::consecutive(3, 4, 2, 3);
    assert_eq!(of_four.holds::<Field257>(), (false, 4102));
    of_four.exponents = vec![vec![39, 6], vec![41, 51], vec![28, 2]];
    assert_eq!(of_four.holds::<Field257>(), (true, 4102));
}

/// The trays of four racks of three that are lost, whichever four they are.
#[test]
fn any_four_trays_of_twelve_are_determined() {
    let code = Coupled::consecutive(4, 3, 2, 2);
    let powers = powers::<Field256>();
    let lost: Vec<Vec<usize>> = sets(12).filter(|trays| trays.len() == 4).collect();
    let determined = |trays: &Vec<usize>| code.determines::<Field256>(&powers, trays);
    assert!(lost.iter().all(determined));
    assert_eq!((lost.len(), code.layers()), (495, 4));
}
