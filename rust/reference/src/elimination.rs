//! Systems of equations over a field, solved by elimination.

use crate::field::Field;

/// One equation: a coefficient for each unknown, then the right side, or several
/// of them.
pub type Equation<F> = Vec<<F as Field>::Symbol>;

/// The one solution, or none where the equations contradict each other.
///
/// The equations must determine every unknown; those of the parity checks do.
pub fn solve<F: Field>(equations: Vec<Equation<F>>, unknowns: usize) -> Option<Vec<F::Symbol>> {
    let solved = solve_many::<F>(equations, unknowns)?;
    Some(solved.iter().map(|values| values[0]).collect())
}

/// The same for several right sides: the values of each unknown, one for each
/// side.
pub fn solve_many<F: Field>(
    mut equations: Vec<Equation<F>>,
    unknowns: usize,
) -> Option<Vec<Vec<F::Symbol>>> {
    for unknown in 0..unknowns {
        let pivot = (unknown..equations.len())
            .find(|&row| equations[row][unknown] != F::ZERO)
            .expect("the equations determine every unknown");
        equations.swap(unknown, pivot);
        scale::<F>(&mut equations[unknown], unknown);
        clear::<F>(&mut equations, unknown);
    }
    let (solved, rest) = equations.split_at(unknowns);
    let right = |equation: &Equation<F>| equation[unknowns..].to_vec();
    let vanishes = |equation: &Equation<F>| right(equation).iter().all(|&side| side == F::ZERO);
    let consistent = rest.iter().all(vanishes);
    consistent.then(|| solved.iter().map(right).collect())
}

/// Makes the unknown's coefficient 1.
fn scale<F: Field>(equation: &mut Equation<F>, unknown: usize) {
    let factor = F::inverse(equation[unknown]);
    for value in equation {
        *value = F::multiply(*value, factor);
    }
}

/// Takes the unknown out of every equation but its own.
fn clear<F: Field>(equations: &mut [Equation<F>], unknown: usize) {
    let own = equations[unknown].clone();
    for (row, equation) in equations.iter_mut().enumerate() {
        let factor = equation[unknown];
        if row != unknown && factor != F::ZERO {
            // Left of the unknown its own equation is zero already.
            for (value, of_own) in equation[unknown..].iter_mut().zip(&own[unknown..]) {
                *value = F::subtract(*value, F::multiply(factor, *of_own));
            }
        }
    }
}

#[cfg(test)]
mod tests {
    use super::*;
    use crate::{Field256, Field257};

    #[test]
    fn a_system_that_needs_a_swap() {
        // y = 5, x + y = 6
        let equations = vec![vec![0, 1, 5], vec![1, 1, 6]];
        assert_eq!(solve::<Field256>(equations, 2), Some(vec![3, 5]));
        // y = 7, x + y = 5
        let equations = vec![vec![0, 1, 7], vec![1, 1, 5]];
        assert_eq!(solve::<Field257>(equations, 2), Some(vec![255, 7]));
    }

    #[test]
    fn a_third_equation_must_agree() {
        let agreeing = vec![vec![1, 0, 7], vec![0, 2, 8], vec![1, 1, 3]];
        let contrary = vec![vec![1, 0, 7], vec![0, 2, 8], vec![1, 1, 2]];
        assert_eq!(solve::<Field256>(agreeing, 2), Some(vec![7, 4]));
        assert_eq!(solve::<Field256>(contrary, 2), None);
        let agreeing = vec![vec![1, 0, 7], vec![0, 2, 9], vec![2, 4, 32]];
        let contrary = vec![vec![1, 0, 7], vec![0, 2, 9], vec![2, 4, 33]];
        assert_eq!(solve::<Field257>(agreeing, 2), Some(vec![7, 133]));
        assert_eq!(solve::<Field257>(contrary, 2), None);
    }

    #[test]
    fn several_right_sides() {
        let equations = vec![vec![0, 1, 5, 1], vec![1, 1, 6, 1]];
        let both = Some(vec![vec![3, 0], vec![5, 1]]);
        assert_eq!(solve_many::<Field256>(equations, 2), both);
        let contrary = vec![vec![1, 7, 7], vec![2, 14, 15]];
        assert_eq!(solve_many::<Field257>(contrary, 1), None);
    }

    #[test]
    fn with_no_unknown_the_right_sides_must_vanish() {
        assert_eq!(solve::<Field257>(vec![vec![0], vec![0]], 0), Some(vec![]));
        assert_eq!(solve::<Field257>(vec![vec![0], vec![1]], 0), None);
    }
}
