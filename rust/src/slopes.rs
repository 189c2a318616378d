//! A check of a host's own slopes, for debugging: each is compared with a difference of values beside the point. A
//! wrong sign or a forgotten factor shows at once, where a run would only come to rest at a wrong point or be damped.

use crate::scalars::Scalar;
use crate::solvers::least_squares::{Evaluation, Rows};

/// Which rows a slope is of.
#[derive(Clone, Copy, Debug, PartialEq, Eq)]
pub enum Of {
    /// The constraints.
    Constraints,
    /// The sum.
    Sum,
}

/// A slope that is not what the values beside the point say.
#[derive(Clone, Copy, Debug, PartialEq)]
pub struct Mismatch {
    /// Of which rows.
    pub of: Of,
    /// Of which of them.
    pub row: usize,
    /// By which variable.
    pub variable: usize,
    /// What the evaluation says, in the middle.
    pub slope: f64,
    /// What the values beside the point say.
    pub difference: f64,
}

/// The slopes at `x` that differ by more than `tolerance`, relative to 1 and their size, from the differences of the
/// values at `x` moved by `step` to both sides, one variable after the other. Rows that cannot be evaluated at one of
/// the points are passed over, and so are those that are not as many at all three, as beside a stop, since then nothing
/// tells which is which. With curved rows the difference is off by about `step` squared.
///
/// ```
/// use yadzvego::scalars::Scalar;
/// use yadzvego::slopes::mismatches;
/// use yadzvego::solvers::least_squares::Evaluation;
///
/// let evaluate = |at: &Vec<Scalar>| {
///     let mut e = Evaluation::default();
///     // The slope of x - y by y is -1.
///     e.sum.push(at[0].sub(at[1]), vec![Scalar::ONE, Scalar::ONE]);
///     Some(e)
/// };
/// let at = vec![Scalar::from_i64(3), Scalar::from_i64(4)];
/// let found = mismatches(evaluate, &at, 1e-3, 1e-6);
/// assert_eq!(found.len(), 1);
/// assert_eq!((found[0].row, found[0].variable, found[0].slope), (0, 1, 1.0));
/// ```
pub fn mismatches(
    evaluate: impl Fn(&Vec<Scalar>) -> Option<Evaluation>,
    x: &[Scalar],
    step: f64,
    tolerance: f64,
) -> Vec<Mismatch> {
    let mut found = Vec::new();
    let moved = |variable: usize, by: f64| {
        let mut to = x.to_vec();
        to[variable] = Scalar::from_f64(to[variable].to_f64() + by);
        evaluate(&to)
    };
    let Some(here) = evaluate(&x.to_vec()) else {
        return found;
    };
    for variable in 0..x.len() {
        let (Some(below), Some(above)) = (moved(variable, -step), moved(variable, step)) else {
            continue;
        };
        let mut compare = |of: Of, here: &Rows, below: &Rows, above: &Rows| {
            let count = here.values.len();
            if below.values.len() != count || above.values.len() != count {
                return;
            }
            let values = below.values.iter().zip(&above.values);
            for (row, ((low, high), slopes)) in values.zip(&here.jacobian).enumerate() {
                let Some(slope) = slopes.get(variable).map(|s| s.to_f64()) else {
                    continue;
                };
                let difference = (high.to_f64() - low.to_f64()) / (2.0 * step);
                let near = (slope - difference).abs() <= tolerance * (1.0 + slope.abs());
                if !near {
                    found.push(Mismatch {
                        of,
                        row,
                        variable,
                        slope,
                        difference,
                    });
                }
            }
        };
        compare(
            Of::Constraints,
            &here.constraints,
            &below.constraints,
            &above.constraints,
        );
        compare(Of::Sum, &here.sum, &below.sum, &above.sum);
    }
    found
}
