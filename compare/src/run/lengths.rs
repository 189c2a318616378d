//! Refusals 1 and 2, which the Rust has not: counts above their limits, and slices that are too short or too long.
//! Nothing is written then, and a value is zero.

use crate::run::pieces::{CONSTRAINTS, Call, PAIRS, Piece, Reply};
use crate::words::words;
use geop_core_math::scalars::Scalar;

/// What the output holds before a call.
const BEFORE: f64 = 1.0;

/// Variables, constraint rows and sum rows of which some count is above its limit, and within it.
#[rustfmt::skip]
const ABOVE: [(usize, usize, usize); 7] = [
    (13, 0, 0), (0, 13, 0), (0, 0, 25), (13, 12, 24), (12, 13, 24), (12, 12, 25), (13, 13, 25),
];
#[rustfmt::skip]
const WITHIN: [(usize, usize, usize); 8] = [
    (12, 12, 24), (12, 0, 0), (0, 12, 0), (0, 0, 24), (6, 4, 8), (2, 1, 3), (1, 1, 1), (0, 0, 0),
];

/// Whether the piece has no other count than n.
fn only_variables(piece: &Piece) -> bool {
    (piece.shape)(1, 1, 1).inputs == (piece.shape)(1, 2, 3).inputs
}

/// A call whose slices all have the shape's lengths, but for the slice `changed`, which is longer by `by`.
fn call(piece: &Piece, counts: (usize, usize, usize), changed: usize, by: isize) -> Option<Call> {
    let (n, m, s) = counts;
    let shape = (piece.shape)(n, m, s);
    let mut lengths = shape.inputs.clone();
    lengths.push(shape.marks);
    lengths.extend(&shape.out);
    lengths[changed] = lengths[changed].checked_add_signed(by)?;
    let inputs = shape.inputs.len();
    Some(Call {
        n,
        m,
        s,
        next_m: m.min(CONSTRAINTS),
        inputs: lengths[..inputs]
            .iter()
            .map(|&length| vec![2.0; length])
            .collect(),
        marks: vec![true; lengths[inputs]],
        out: lengths[inputs + 1..]
            .iter()
            .map(|&length| vec![BEFORE; length])
            .collect(),
        scalars: vec![Scalar::ONE; 2],
        ..Call::default()
    })
}

/// The slices of a piece that can have a wrong length, by their place in `call`.
fn slices(piece: &Piece) -> Vec<usize> {
    let shape = (piece.shape)(1, 1, 1);
    let inputs = shape.inputs.len();
    let mut slices: Vec<usize> = (0..inputs).collect();
    if shape.marks > 0 {
        slices.push(inputs);
    }
    slices.extend((0..shape.out.len()).map(|i| inputs + 1 + i));
    slices
}

fn refusal(piece: &Piece, number: u64, call: Call) -> (Call, Reply) {
    let reply = Reply {
        number,
        value: vec![0; piece.value],
        out: words(&call.out.concat()),
        marks: call.marks.clone(),
        kept: true,
    };
    (call, reply)
}

/// A count above its limit is refused whatever the lengths are.
fn too_many(piece: &Piece) -> Vec<(Call, Reply)> {
    let slices = slices(piece);
    let (first, last) = (slices[0], slices[slices.len() - 1]);
    let mut refusals = Vec::new();
    for counts in ABOVE {
        if counts.0 > 12 || !only_variables(piece) {
            for (changed, by) in [(first, 0), (first, -1), (last, 1)] {
                let wrong = call(piece, counts, changed, by);
                refusals.extend(wrong.map(|call| refusal(piece, 1, call)));
            }
        }
    }
    let few = || call(piece, (2, 2, 2), first, 0).expect("lengths as they are");
    let most = usize::MAX;
    let counts = [(most, most, most), (most, 1, 1), (1, most, 1), (1, 1, most)];
    for (n, m, s) in counts {
        if n == most || !only_variables(piece) {
            refusals.push(refusal(piece, 1, Call { n, m, s, ..few() }));
        }
    }
    if piece.name == "judge" || piece.name == "update_curvature" {
        // The m of the second answer, whatever the lengths are.
        for next_m in [CONSTRAINTS + 1, most] {
            refusals.push(refusal(piece, 1, Call { next_m, ..few() }));
            let short = call(piece, (2, 2, 2), first, -1).expect("a number less");
            refusals.push(refusal(piece, 1, Call { next_m, ..short }));
        }
    }
    if piece.name == "judge" {
        for count in [PAIRS + 1, most] {
            refusals.push(refusal(piece, 1, Call { count, ..few() }));
        }
    }
    refusals
}

/// One slice is too short or too long.
fn wrong_length(piece: &Piece) -> Vec<(Call, Reply)> {
    let mut refusals = Vec::new();
    for counts in WITHIN {
        for changed in slices(piece) {
            for by in [-2, -1, 1, 2] {
                let wrong = call(piece, counts, changed, by);
                refusals.extend(wrong.map(|call| refusal(piece, 2, call)));
            }
        }
        if piece.name == "squared" {
            let fit = call(piece, counts, 0, 0).expect("lengths as they are");
            // Neither none of the variables nor all.
            for count in [counts.0 + 1, 13, usize::MAX] {
                refusals.push(refusal(
                    piece,
                    2,
                    Call {
                        count,
                        ..fit.clone()
                    },
                ));
            }
        }
    }
    refusals
}

/// Calls, and the reply that the rule gives.
pub fn refusals(piece: &Piece) -> Vec<(Call, Reply)> {
    let mut refusals = too_many(piece);
    refusals.extend(wrong_length(piece));
    refusals
}
