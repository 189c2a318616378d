//! A smaller call of a piece that differs: of the least sizes at which some drawn call does, with simpler numbers.

use crate::interval::operands::Random;
use crate::run::pieces::{CONSTRAINTS, Call, Piece, RESIDUALS, VARIABLES};
use crate::shrink::{Case, changes_in, simpler_in, smallest};
use geop_core_math::scalars::Scalar;

/// So many calls are drawn of each size.
const DRAWN: usize = 40;

fn differs(piece: &Piece, call: &Call) -> bool {
    (piece.rust)(call) != piece.replied(call)
}

/// Sizes whose sum is less than `below`, the least sum first.
fn sizes(below: usize) -> Vec<(usize, usize, usize)> {
    let mut sizes: Vec<_> = (0..=VARIABLES)
        .flat_map(|n| (0..=CONSTRAINTS).map(move |m| (n, m)))
        .flat_map(|(n, m)| (0..=RESIDUALS).map(move |s| (n, m, s)))
        .filter(|(n, m, s)| n + m + s < below)
        .collect();
    sizes.sort_by_key(|(n, m, s)| n + m + s);
    sizes
}

/// The slices that are read, those that are written as they stand before, and the scalars.
struct Simpler(Call);

fn numbers(call: &Call) -> Vec<Vec<f64>> {
    let scalars = call.scalars.iter().flat_map(|x| [x.lo, x.hi]).collect();
    let slices = call.inputs.iter().chain(&call.out).cloned();
    slices.chain([scalars]).collect()
}

fn with_numbers(call: &Call, mut numbers: Vec<Vec<f64>>) -> Call {
    let scalars = numbers.pop().expect("the scalars are last");
    let out = numbers.split_off(call.inputs.len());
    let ends = scalars.chunks_exact(2);
    let scalars = ends.map(|ends| Scalar {
        lo: ends[0],
        hi: ends[1],
    });
    Call {
        inputs: numbers,
        out,
        scalars: scalars.collect(),
        ..call.clone()
    }
}

impl Case for Simpler {
    fn changes(&self) -> usize {
        numbers(&self.0).iter().map(|slice| changes_in(slice)).sum()
    }

    fn changed(&self, mut change: usize) -> Option<Simpler> {
        let mut slices = numbers(&self.0);
        for slice in &mut slices {
            if change < changes_in(slice) {
                *slice = simpler_in(slice, change)?;
                return Some(Simpler(with_numbers(&self.0, slices)));
            }
            change -= changes_in(slice);
        }
        None
    }
}

/// The smallest call found that differs, given one that does.
pub fn least(piece: &Piece, call: &Call) -> Call {
    let mut random = Random::new(1);
    let smaller = sizes(call.n + call.m + call.s)
        .into_iter()
        .flat_map(|sizes| std::iter::repeat_n(sizes, DRAWN))
        .map(|(n, m, s)| (piece.draw)(&mut random, n, m, s))
        .find(|call| differs(piece, call));
    let least = Simpler(smaller.unwrap_or_else(|| call.clone()));
    smallest(least, |case| differs(piece, &case.0)).0
}
