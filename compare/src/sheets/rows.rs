//! The rows of a sheet at a point, worked out by the Rust's scalars.

use geop_core_math::scalars::Scalar;
use geop_core_math::solvers::least_squares::Evaluation;

/// The greatest magnitude of an end, 2^400.
const MOST: f64 = f64::from_bits(0x58F0_0000_0000_0000);

#[derive(Clone, Copy, PartialEq)]
pub enum Rule {
    Span(usize, usize, i64),
    Level(usize, usize),
    Plumb(usize, usize),
}

/// Zeros, and other slopes at some places.
fn slopes(n: usize, at: &[(usize, Scalar)]) -> Vec<Scalar> {
    let mut row = vec![Scalar::ZERO; n];
    for &(i, slope) in at {
        row[i] = slope;
    }
    row
}

fn level_or_plumb(x: &[Scalar], i: usize, j: usize) -> (Scalar, Vec<Scalar>) {
    let row = slopes(x.len(), &[(i, Scalar::ONE), (j, Scalar::ONE.neg())]);
    (x[i].sub(x[j]), row)
}

fn constraint(rule: Rule, x: &[Scalar]) -> (Scalar, Vec<Scalar>) {
    match rule {
        Rule::Span(i, j, d) => {
            let (dx, dy) = (x[2 * i].sub(x[2 * j]), x[2 * i + 1].sub(x[2 * j + 1]));
            let d = Scalar::from_i64(d);
            let (sx, sy) = (Scalar::TWO.mul(dx), Scalar::TWO.mul(dy));
            let at = [
                (2 * i, sx),
                (2 * i + 1, sy),
                (2 * j, sx.neg()),
                (2 * j + 1, sy.neg()),
            ];
            let value = dx.mul(dx).add(dy.mul(dy)).sub(d.mul(d));
            (value, slopes(x.len(), &at))
        }
        Rule::Level(i, j) => level_or_plumb(x, 2 * i + 1, 2 * j + 1),
        Rule::Plumb(i, j) => level_or_plumb(x, 2 * i, 2 * j),
    }
}

/// The rules' rows, and each coordinate less its starting value.
pub fn rows(rules: &[Rule], start: &[Scalar], x: &[Scalar]) -> Evaluation {
    let mut e = Evaluation::default();
    for &rule in rules {
        let (value, row) = constraint(rule, x);
        e.constraints.push(value, row);
    }
    for i in 0..x.len() {
        let row = slopes(x.len(), &[(i, Scalar::ONE)]);
        e.sum.push(x[i].sub(start[i]), row);
    }
    e
}

fn in_domain(v: &Scalar) -> bool {
    -MOST <= v.lo && v.lo <= v.hi && v.hi <= MOST
}

/// The rows as they are answered: none where an end is outside the domain.
pub fn answered(rules: &[Rule], start: &[Scalar], x: &[Scalar]) -> Option<Evaluation> {
    let e = rows(rules, start, x);
    let all = [&e.constraints, &e.sum];
    let mut ends = all
        .iter()
        .flat_map(|r| r.values.iter().chain(r.jacobian.iter().flatten()));
    ends.all(in_domain).then_some(e)
}
