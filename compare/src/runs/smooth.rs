//! Smooth problems: each residual is a constant, a linear part and a few products of two variables, with its
//! derivative, all of them enclosed more or less widely. Some constraints are one-sided: they are answered only where
//! they are met.

use crate::interval::operands::Random;
use crate::runs::problem::{Counts, Reply, Rows, Sizes};
use geop_core_math::scalars::Scalar;

struct Residual {
    constant: Scalar,
    linear: Vec<Scalar>,
    /// Two variables and the factor of their product.
    products: Vec<(usize, usize, Scalar)>,
}

pub struct Smooth {
    constraints: Vec<Residual>,
    /// The first so many of them hold everywhere; each other one only where its value is not definitely negative.
    held: usize,
    sum: Vec<Residual>,
    /// Half the width that values and slopes have beside rounding.
    value_width: f64,
    slope_width: f64,
    /// Where the first variable is above this, there is no answer.
    edge: f64,
}

fn widened(x: Scalar, half: f64) -> [f64; 2] {
    [x.lo - half, x.hi + half]
}

impl Residual {
    fn drawn(random: &mut Random, n: usize) -> Residual {
        let mut linear = vec![Scalar::ZERO; n];
        let mut products = Vec::new();
        if n > 0 {
            for _ in 0..=random.below(n.min(4) as u64) {
                let i = random.below(n as u64) as usize;
                linear[i] = Scalar::degenerate(random.sized(-3, 2));
            }
            for _ in 0..random.below(3) {
                let (i, j) = (random.below(n as u64), random.below(n as u64));
                let factor = Scalar::degenerate(random.sized(-6, 1));
                products.push((i as usize, j as usize, factor));
            }
        }
        Residual {
            constant: Scalar::degenerate(random.sized(-3, 5)),
            linear,
            products,
        }
    }

    fn value(&self, x: &[Scalar]) -> Scalar {
        let linear = self.linear.iter().zip(x);
        let sum = linear.fold(self.constant, |sum, (&a, &x)| sum.add(a.mul(x)));
        self.products
            .iter()
            .fold(sum, |sum, &(i, j, a)| sum.add(a.mul(x[i].mul(x[j]))))
    }

    fn slopes(&self, x: &[Scalar]) -> Vec<Scalar> {
        let mut slopes = self.linear.clone();
        for &(i, j, a) in &self.products {
            slopes[i] = slopes[i].add(a.mul(x[j]));
            slopes[j] = slopes[j].add(a.mul(x[i]));
        }
        slopes
    }
}

impl Smooth {
    pub fn drawn(random: &mut Random, sizes: Sizes, counts: Counts) -> Smooth {
        let mut residuals = |count: usize| -> Vec<Residual> {
            (0..count)
                .map(|_| Residual::drawn(random, sizes.n))
                .collect()
        };
        let (constraints, sum) = (residuals(counts.m), residuals(sizes.s));
        let held = if counts.changes {
            random.below(counts.m as u64 + 1) as usize
        } else {
            counts.m
        };
        let width = |random: &mut Random| match random.below(4) {
            0 | 1 => 0.0,
            2 => random.sized(-30, -5).abs(),
            _ => random.sized(-6, 2).abs(),
        };
        Smooth {
            constraints,
            held,
            sum,
            value_width: width(random),
            slope_width: width(random),
            edge: match random.below(4) {
                0 => random.sized(-3, 5),
                _ => f64::INFINITY,
            },
        }
    }

    /// The constraints that hold at a point: one-sided ones are left out where they are not met.
    fn holding(&self, x: &[Scalar]) -> Vec<&Residual> {
        let all = self.constraints.iter().enumerate();
        all.filter(|(i, row)| *i < self.held || row.value(x).hi >= 0.0)
            .map(|(_, row)| row)
            .collect()
    }

    pub fn rows(&self, x: &[Scalar]) -> Reply {
        if x.first().is_some_and(|x| x.hi > self.edge) {
            return None;
        }
        let holding = self.holding(x);
        let m = holding.len();
        let mut numbers = Vec::new();
        for rows in [holding, self.sum.iter().collect()] {
            for row in &rows {
                numbers.extend(widened(row.value(x), self.value_width));
            }
            for row in &rows {
                let slopes = row.slopes(x).into_iter();
                numbers.extend(slopes.flat_map(|v| widened(v, self.slope_width)));
            }
        }
        Some(Rows { m, numbers })
    }
}
