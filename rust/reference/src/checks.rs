//! The parity checks of a layout.

use crate::elimination::{solve, solve_many, Equation};
use crate::field::Field;
use crate::layout::Numbers;

/// The checks of a layout, their coefficients worked out once.
pub struct Checks<F: Field> {
    numbers: Numbers,
    /// By tray, digit of its rack, and t.
    coefficients: Vec<Vec<Vec<F::Symbol>>>,
}

/// The point of a rack, a digit and a place.
pub fn point<F: Field>(numbers: &Numbers, rack: usize, digit: usize, place: usize) -> F::Symbol {
    F::power(
        F::ROOT,
        rack * numbers.base + digit + place * (F::ORDER / numbers.size),
    )
}

impl<F: Field> Checks<F> {
    pub fn new(numbers: Numbers) -> Checks<F> {
        let of_digit = |tray: usize, digit| {
            let point = point::<F>(&numbers, tray / numbers.size, digit, tray % numbers.size);
            let powers =
                std::iter::successors(Some(F::ONE), |&last| Some(F::multiply(last, point)));
            powers.take(numbers.checks).collect()
        };
        let of_tray = |tray| {
            (0..numbers.base)
                .map(|digit| of_digit(tray, digit))
                .collect()
        };
        Checks {
            numbers,
            coefficients: (0..numbers.trays).map(of_tray).collect(),
        }
    }

    /// What check t multiplies a tray's symbol in a layer by.
    pub fn coefficient(&self, tray: usize, layer: usize, t: usize) -> F::Symbol {
        let digit = self.numbers.digit(layer, tray / self.numbers.size);
        self.coefficients[tray][digit][t]
    }

    /// The sum of check t in a layer over the trays named.
    pub fn sum(
        &self,
        codeword: &[F::Symbol],
        trays: &[usize],
        layer: usize,
        t: usize,
    ) -> F::Symbol {
        let term = |&tray: &usize| {
            let symbol = codeword[tray * self.numbers.layers + layer];
            F::multiply(self.coefficient(tray, layer, t), symbol)
        };
        F::sum(trays.iter().map(term))
    }

    /// The symbols in a layer of the unknown trays, by all r checks, or none
    /// where no codeword has the symbols of the others. The old symbols of the
    /// unknown trays are not looked at.
    pub fn complete(
        &self,
        codeword: &[F::Symbol],
        unknown: &[usize],
        layer: usize,
    ) -> Option<Vec<F::Symbol>> {
        let known: Vec<usize> = (0..self.numbers.trays)
            .filter(|tray| !unknown.contains(tray))
            .collect();
        // The unknown part of a check and the known one add up to zero.
        let equation = |t| -> Equation<F> {
            let coefficients = unknown.iter().map(|&tray| self.coefficient(tray, layer, t));
            coefficients
                .chain([F::negate(self.sum(codeword, &known, layer, t))])
                .collect()
        };
        let equations = (0..self.numbers.checks).map(equation).collect();
        solve::<F>(equations, unknown.len())
    }

    /// The codewords' symbols in a layer, for each data symbol the one in which it
    /// is 1 and the others are 0: every layer of a codeword is a sum of multiples
    /// of these.
    pub fn units(&self, layer: usize) -> Vec<Vec<F::Symbol>> {
        let Numbers {
            dimension,
            trays,
            checks,
            ..
        } = self.numbers;
        let equation = |t| -> Equation<F> {
            let parity = (dimension..trays).map(|tray| self.coefficient(tray, layer, t));
            let data = (0..dimension).map(|tray| F::negate(self.coefficient(tray, layer, t)));
            parity.chain(data).collect()
        };
        let equations = (0..checks).map(equation).collect();
        let parity = solve_many::<F>(equations, checks);
        let parity = parity.expect("r checks in r unknowns have a solution");
        let symbol = |tray: usize, data: usize| match tray.checked_sub(dimension) {
            Some(place) => parity[place][data],
            None if tray == data => F::ONE,
            None => F::ZERO,
        };
        let unit = |data| (0..trays).map(|tray| symbol(tray, data)).collect();
        (0..dimension).map(unit).collect()
    }

    /// The codeword with the unknown trays filled in, layer by layer.
    pub fn fill(&self, codeword: &[F::Symbol], unknown: &[usize]) -> Option<Vec<F::Symbol>> {
        let mut filled = codeword.to_vec();
        for layer in 0..self.numbers.layers {
            let symbols = self.complete(codeword, unknown, layer)?;
            for (tray, symbol) in unknown.iter().zip(symbols) {
                filled[tray * self.numbers.layers + layer] = symbol;
            }
        }
        Some(filled)
    }
}
