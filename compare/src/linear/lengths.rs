//! Refusals 1 and 2, which the Rust has not: counts above 24, and slices that are too short or too long. Nothing is
//! written then, and a value is zero.

use crate::linear::functions::{Call, Function, LIMIT, Reply};
use crate::words::word;

/// What the output holds before a call.
pub const BEFORE: f64 = 1.0;

/// Rows and columns of which one count or both are above the limit, and within it.
#[rustfmt::skip]
const ABOVE: [(usize, usize); 7] = [(25, 25), (25, 24), (25, 0), (24, 25), (0, 25), (26, 3), (3, 26)];
#[rustfmt::skip]
const WITHIN: [(usize, usize); 8] = [(24, 24), (24, 1), (1, 24), (12, 12), (3, 2), (2, 3), (1, 1), (0, 0)];

/// A call whose slices all have the shape's lengths, but for the slice `changed`, which is longer by `by`; with the
/// length of its output.
fn call(
    function: &Function,
    m: usize,
    n: usize,
    changed: usize,
    by: isize,
) -> Option<(Call, usize)> {
    let shape = function.shape(m, n);
    let mut lengths = shape.inputs.clone();
    lengths.extend([shape.marks, shape.out]);
    lengths[changed] = lengths[changed].checked_add_signed(by)?;
    let inputs = shape.inputs.len();
    let call = Call {
        m,
        n,
        inputs: lengths[..inputs]
            .iter()
            .map(|&length| vec![2.0; length])
            .collect(),
        marks: vec![true; lengths[inputs]],
    };
    Some((call, lengths[inputs + 1]))
}

/// The slices of a function that can have a wrong length, by their place in `call`.
fn slices(function: &Function) -> Vec<usize> {
    let shape = function.shape(1, 1);
    let inputs = shape.inputs.len();
    let mut slices: Vec<usize> = (0..inputs).collect();
    if shape.marks > 0 {
        slices.push(inputs);
    }
    if !function.gives_value {
        slices.push(inputs + 1);
    }
    slices
}

fn refusal(function: &Function, number: u64, call: Call, out: usize) -> (Call, usize, Reply) {
    let word = if function.gives_value {
        0
    } else {
        word(BEFORE)
    };
    let reply = Reply {
        number,
        out: vec![word; out],
        marks: call.marks.clone(),
        kept: true,
    };
    (call, out, reply)
}

/// A count above the limit is refused whatever the lengths are.
fn too_many(function: &Function) -> Vec<(Call, usize, Reply)> {
    let slices = slices(function);
    let (first, last) = (slices[0], slices[slices.len() - 1]);
    let mut refusals = Vec::new();
    for (m, n) in ABOVE {
        if n > LIMIT || m > LIMIT && function.counts == 2 {
            for (changed, by) in [(first, 0), (first, -1), (last, 1)] {
                let wrong = call(function, m, n, changed, by);
                refusals.extend(wrong.map(|(call, out)| refusal(function, 1, call, out)));
            }
        }
    }
    let (most, out) = call(function, 2, 2, first, 0).expect("lengths as they are");
    let most = Call {
        m: usize::MAX,
        n: usize::MAX,
        ..most
    };
    refusals.push(refusal(function, 1, most, out));
    refusals
}

/// One slice is too short or too long.
fn wrong_length(function: &Function) -> Vec<(Call, usize, Reply)> {
    let mut refusals = Vec::new();
    for (m, n) in WITHIN {
        for changed in slices(function) {
            for by in [-2, -1, 1, 2] {
                let wrong = call(function, m, n, changed, by);
                refusals.extend(wrong.map(|(call, out)| refusal(function, 2, call, out)));
            }
        }
    }
    refusals
}

/// Calls with the length of their output, and the reply that the rule gives.
pub fn refusals(function: &Function) -> Vec<(Call, usize, Reply)> {
    if function.counts == 0 {
        return Vec::new();
    }
    let mut refusals = too_many(function);
    refusals.extend(wrong_length(function));
    refusals
}
