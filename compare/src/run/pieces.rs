//! The pieces of a run compared. A call has its counts and its slices, flat, two numbers for each scalar.

use crate::archive;
use crate::interval::functions::number_of;
use crate::interval::operands::Random;
use crate::run::problems;
use crate::run::rust;
use crate::run_c;
use crate::words::{word, words};
use geop_core_math::geop_error::GeopResult;
use geop_core_math::scalars::Scalar;
use geop_core_math::solvers::least_squares::{self as solver, Evaluation, Rows};

/// The greatest counts of variables, of constraint rows and of sum rows.
pub const VARIABLES: usize = 12;
pub const CONSTRAINTS: usize = 12;
pub const RESIDUALS: usize = 24;

pub const POINT: usize = 2 * VARIABLES;
pub const CURVATURE: usize = 2 * VARIABLES * VARIABLES;
/// The most pairs of a filter.
pub const PAIRS: usize = 200;

#[derive(Clone, Default)]
pub struct Call {
    pub n: usize,
    pub m: usize,
    pub s: usize,
    /// The constraint rows of the second answer, where there are two.
    pub next_m: usize,
    /// What is only read.
    pub inputs: Vec<Vec<f64>>,
    /// The marks that are read, or that stand before in the slice that is written.
    pub marks: Vec<bool>,
    pub scalars: Vec<Scalar>,
    /// The variables that `squared` goes over, or the pairs of `judge`'s filter.
    pub count: usize,
    /// Whether a step was taken before.
    pub taken: bool,
    /// What the slices that are written hold before.
    pub out: Vec<Vec<f64>>,
}

/// The refusal's number or 0, the words of a value, what the slices are then, and whether the inputs are as they were.
#[derive(Default, PartialEq, Eq)]
pub struct Reply {
    pub number: u64,
    pub value: Vec<u64>,
    pub out: Vec<u64>,
    pub marks: Vec<bool>,
    pub kept: bool,
}

/// The lengths of a call's slices.
pub struct Shape {
    pub inputs: Vec<usize>,
    pub marks: usize,
    pub out: Vec<usize>,
}

pub struct Piece {
    pub name: &'static str,
    pub code: u64,
    /// How many words its value has; they are 0 where the call is refused.
    pub value: usize,
    pub shape: fn(usize, usize, usize) -> Shape,
    pub draw: fn(&mut Random, usize, usize, usize) -> Call,
    pub rust: fn(&Call) -> Reply,
    /// The number and the value; the output and the marks are written.
    pub rattle: fn(&Call, &mut [Vec<f64>], &mut [bool]) -> (u64, Vec<u64>),
    /// What a reply that is no refusal says, to be counted.
    pub says: fn(&Call, &Reply) -> &'static str,
}

impl Piece {
    pub fn replied(&self, call: &Call) -> Reply {
        let lent = call.clone();
        let (mut out, mut marks) = (call.out.clone(), call.marks.clone());
        let (number, value) = (self.rattle)(&lent, &mut out, &mut marks);
        Reply {
            number,
            value,
            out: words(&out.concat()),
            marks,
            kept: bits(&lent.inputs) == bits(&call.inputs),
        }
    }
}

fn bits(inputs: &[Vec<f64>]) -> Vec<u64> {
    inputs.iter().flatten().map(|x| x.to_bits()).collect()
}

// ---- between slices and the Rust's lists

pub fn row_numbers(n: usize, m: usize, s: usize) -> usize {
    2 * (m + s) * (n + 1)
}

pub fn scalars(flat: &[f64]) -> Vec<Scalar> {
    flat.chunks_exact(2)
        .map(|ends| Scalar {
            lo: ends[0],
            hi: ends[1],
        })
        .collect()
}

pub fn flat(scalars: &[Scalar]) -> Vec<f64> {
    scalars.iter().flat_map(|x| [x.lo, x.hi]).collect()
}

/// +0 behind, up to `length` numbers.
fn padded(scalars: &[Scalar], length: usize) -> Vec<u64> {
    let mut numbers = flat(scalars);
    numbers.resize(length, 0.0);
    words(&numbers)
}

fn matrix(scalars: &[Scalar], rows: usize, columns: usize) -> Vec<Vec<Scalar>> {
    (0..rows)
        .map(|i| scalars[i * columns..(i + 1) * columns].to_vec())
        .collect()
}

/// The constraint values, their slopes row by row, then the sum's.
pub fn evaluation(call: &Call, rows: &[f64]) -> Evaluation {
    let (n, m, s) = (call.n, call.m, call.s);
    let all = scalars(rows);
    let (constraints, sum) = all.split_at(m * (n + 1));
    let of = |part: &[Scalar], count: usize| Rows {
        values: part[..count].to_vec(),
        jacobian: matrix(&part[count..], count, n),
    };
    Evaluation {
        constraints: of(constraints, m),
        sum: of(sum, s),
    }
}

/// The second answer, which has an m of its own.
pub fn next_evaluation(call: &Call, rows: &[f64]) -> Evaluation {
    let of_next = Call {
        n: call.n,
        m: call.next_m,
        s: call.s,
        ..Call::default()
    };
    evaluation(&of_next, rows)
}

/// The first n rows of n.
fn curvature(call: &Call, b: &[f64]) -> Vec<Vec<Scalar>> {
    matrix(&scalars(b), call.n, call.n)
}

fn first(flat: &[f64], count: usize) -> Vec<Scalar> {
    scalars(&flat[..2 * count])
}

// ---- the Rust's replies

fn reply(call: &Call, value: Vec<u64>, out: Vec<u64>) -> Reply {
    Reply {
        number: 0,
        value,
        out,
        marks: call.marks.clone(),
        kept: true,
    }
}

/// A refusal leaves the output +0.
fn refusal(call: &Call, number: u64, value: usize) -> Reply {
    Reply {
        number,
        ..reply(call, vec![0; value], vec![0; call.out.concat().len()])
    }
}

fn value_of(call: &Call, result: GeopResult<Scalar>) -> Reply {
    match result {
        Ok(x) => reply(call, vec![word(x.lo), word(x.hi)], Vec::new()),
        Err(error) => refusal(call, number_of(&error), 2),
    }
}

fn told(call: &Call, result: GeopResult<bool>) -> Reply {
    match result {
        Ok(holds) => reply(call, vec![u64::from(holds)], Vec::new()),
        Err(error) => refusal(call, number_of(&error), 1),
    }
}

fn written(call: &Call, result: GeopResult<Vec<Scalar>>) -> Reply {
    match result {
        Ok(out) => reply(call, Vec::new(), padded(&out, call.out[0].len())),
        Err(error) => refusal(call, number_of(&error), 0),
    }
}

fn rust_squared(call: &Call) -> Reply {
    let e = evaluation(call, &call.inputs[0]);
    value_of(call, Ok(e.sum.squared(&first(&call.inputs[1], call.count))))
}

fn rust_predicted(call: &Call) -> Reply {
    let e = evaluation(call, &call.inputs[0]);
    let delta = first(&call.inputs[1], call.n);
    value_of(call, solver::norm(&e.constraints.linearized(&delta)))
}

fn rust_transposed(call: &Call) -> Reply {
    let e = evaluation(call, &call.inputs[0]);
    let w = first(&call.inputs[1], call.s);
    written(call, Ok(e.sum.transposed(&w, call.n)))
}

fn rust_moving(call: &Call) -> Reply {
    let mut marks = rust::moving(&evaluation(call, &call.inputs[0]), call.n);
    marks.resize(VARIABLES, false);
    Reply {
        marks,
        ..reply(call, Vec::new(), Vec::new())
    }
}

fn rust_judge(call: &Call) -> Reply {
    let (e, e_next) = (
        evaluation(call, &call.inputs[0]),
        next_evaluation(call, &call.inputs[1]),
    );
    let pairs = first(&call.inputs[2], 2 * call.count);
    let filter: Vec<(Scalar, Scalar)> = pairs.chunks_exact(2).map(|p| (p[0], p[1])).collect();
    let last = call.taken.then_some(call.scalars[1]);
    let step = first(&call.inputs[3], call.n);
    match solver::judge(&e, &e_next, call.scalars[0], &filter, last, step) {
        Ok(judged) => {
            let flags = [judged.lower, judged.undecided, judged.contracting];
            let mut value = vec![word(judged.length.lo), word(judged.length.hi)];
            value.extend(flags.map(u64::from));
            reply(call, value, Vec::new())
        }
        Err(error) => refusal(call, number_of(&error), 5),
    }
}

fn rust_expects(call: &Call) -> Reply {
    let e = evaluation(call, &call.inputs[0]);
    let b = curvature(call, &call.inputs[1]);
    let delta = first(&call.inputs[2], call.n);
    told(
        call,
        rust::expects(&e, &b, call.scalars[0], call.scalars[1], &delta),
    )
}

fn rust_along(call: &Call) -> Reply {
    let e = evaluation(call, &call.inputs[0]);
    let v = first(&call.inputs[1], call.n);
    written(call, solver::along(&e.constraints, &v))
}

/// The shift, and as its value what the Rust's `corrected` asks for first.
fn rust_shift(call: &Call) -> Reply {
    let e = evaluation(call, &call.inputs[0]);
    let moving = &call.marks[..call.n];
    let asked = rust::corrected_asks(&e, moving, &first(&call.inputs[1], call.n));
    Reply {
        value: asked,
        ..written(call, rust::shift(&e, moving, call.n))
    }
}

fn rust_cut(call: &Call) -> Reply {
    let delta = first(&call.out[0], call.n);
    written(call, rust::cut(&delta, call.scalars[0]))
}

fn rust_update_curvature(call: &Call) -> Reply {
    let (e, e_next) = (
        evaluation(call, &call.inputs[1]),
        next_evaluation(call, &call.inputs[2]),
    );
    let mut b = curvature(call, &call.out[0]);
    let step = first(&call.inputs[0], call.n);
    let lambda = first(&call.inputs[3], call.m);
    match solver::update_curvature(&mut b, &step, &e, &e_next, &lambda) {
        Ok(()) => {
            let mut out = flat(&b.concat());
            out.extend_from_slice(&call.out[0][out.len()..]);
            reply(call, Vec::new(), words(&out))
        }
        Err(error) => refusal(call, number_of(&error), 0),
    }
}

/// The step and its multipliers; both are +0 where there is none.
fn rust_step(call: &Call) -> Reply {
    let e = evaluation(call, &call.inputs[0]);
    let b = curvature(call, &call.inputs[1]);
    let moving = &call.marks[..call.n];
    match solver::step(&e, &b, moving, call.scalars[0]) {
        Ok(Some(step)) => {
            let mut out = padded(&step.delta, POINT);
            out.extend(padded(&step.lambda, POINT));
            reply(call, vec![1, step.independent as u64], out)
        }
        Ok(None) => refusal(call, 0, 2),
        Err(error) => refusal(call, number_of(&error), 2),
    }
}

fn rust_learned(call: &Call) -> Reply {
    told(call, Ok(solver::learned(&curvature(call, &call.inputs[0]))))
}

// ---- the archive: a pointer and its count are those of one slice

fn archive_scalar(x: Scalar) -> archive::Scalar {
    archive::Scalar { lo: x.lo, hi: x.hi }
}

fn answered(answer: archive::ScalarResult) -> (u64, Vec<u64>) {
    (
        answer.number,
        vec![word(answer.value.lo), word(answer.value.hi)],
    )
}

fn held(decision: run_c::Decision) -> (u64, Vec<u64>) {
    (decision.number, vec![u64::from(decision.holds)])
}

fn archive_squared(call: &Call, _out: &mut [Vec<f64>], _marks: &mut [bool]) -> (u64, Vec<u64>) {
    let (n, m, s) = (call.n, call.m, call.s);
    let (rows, delta) = (&call.inputs[0], &call.inputs[1]);
    answered(unsafe {
        run_c::run_squared(
            n,
            m,
            s,
            rows.as_ptr(),
            rows.len(),
            delta.as_ptr(),
            delta.len(),
            call.count,
        )
    })
}

fn archive_predicted(call: &Call, _out: &mut [Vec<f64>], _marks: &mut [bool]) -> (u64, Vec<u64>) {
    let (n, m, s) = (call.n, call.m, call.s);
    let (rows, delta) = (&call.inputs[0], &call.inputs[1]);
    answered(unsafe {
        run_c::run_predicted(
            n,
            m,
            s,
            rows.as_ptr(),
            rows.len(),
            delta.as_ptr(),
            delta.len(),
        )
    })
}

fn archive_transposed(call: &Call, out: &mut [Vec<f64>], _marks: &mut [bool]) -> (u64, Vec<u64>) {
    let (n, m, s) = (call.n, call.m, call.s);
    let (rows, w) = (&call.inputs[0], &call.inputs[1]);
    let number = unsafe {
        run_c::run_transposed(
            n,
            m,
            s,
            rows.as_ptr(),
            rows.len(),
            w.as_ptr(),
            w.len(),
            out[0].as_mut_ptr(),
            out[0].len(),
        )
    };
    (number, Vec::new())
}

fn archive_moving(call: &Call, _out: &mut [Vec<f64>], marks: &mut [bool]) -> (u64, Vec<u64>) {
    let (n, m, s) = (call.n, call.m, call.s);
    let rows = &call.inputs[0];
    let number = unsafe {
        run_c::run_moving(
            n,
            m,
            s,
            rows.as_ptr(),
            rows.len(),
            marks.as_mut_ptr(),
            marks.len(),
        )
    };
    (number, Vec::new())
}

fn archive_judge(call: &Call, _out: &mut [Vec<f64>], _marks: &mut [bool]) -> (u64, Vec<u64>) {
    let (n, m, s) = (call.n, call.m, call.s);
    let [rows, next, filter, step] = &call.inputs[..] else {
        panic!("four slices")
    };
    let judged = unsafe {
        run_c::run_judge(
            n,
            m,
            s,
            rows.as_ptr(),
            rows.len(),
            call.next_m,
            next.as_ptr(),
            next.len(),
            archive_scalar(call.scalars[0]),
            filter.as_ptr(),
            filter.len(),
            call.count,
            call.taken,
            archive_scalar(call.scalars[1]),
            step.as_ptr(),
            step.len(),
        )
    };
    let mut value = vec![word(judged.length.lo), word(judged.length.hi)];
    value.extend([judged.lower, judged.undecided, judged.contracting].map(u64::from));
    (judged.number, value)
}

fn archive_expects(call: &Call, _out: &mut [Vec<f64>], _marks: &mut [bool]) -> (u64, Vec<u64>) {
    let (n, m, s) = (call.n, call.m, call.s);
    let (rows, b, delta) = (&call.inputs[0], &call.inputs[1], &call.inputs[2]);
    held(unsafe {
        run_c::run_expects(
            n,
            m,
            s,
            rows.as_ptr(),
            rows.len(),
            b.as_ptr(),
            b.len(),
            archive_scalar(call.scalars[0]),
            archive_scalar(call.scalars[1]),
            delta.as_ptr(),
            delta.len(),
        )
    })
}

fn archive_along(call: &Call, out: &mut [Vec<f64>], _marks: &mut [bool]) -> (u64, Vec<u64>) {
    let (n, m, s) = (call.n, call.m, call.s);
    let (rows, v) = (&call.inputs[0], &call.inputs[1]);
    let number = unsafe {
        run_c::run_along(
            n,
            m,
            s,
            rows.as_ptr(),
            rows.len(),
            v.as_ptr(),
            v.len(),
            out[0].as_mut_ptr(),
            out[0].len(),
        )
    };
    (number, Vec::new())
}

fn archive_shift(call: &Call, out: &mut [Vec<f64>], marks: &mut [bool]) -> (u64, Vec<u64>) {
    let (n, m, s) = (call.n, call.m, call.s);
    let rows = &call.inputs[0];
    let number = unsafe {
        run_c::run_shift(
            n,
            m,
            s,
            rows.as_ptr(),
            rows.len(),
            marks.as_ptr(),
            marks.len(),
            out[0].as_mut_ptr(),
            out[0].len(),
        )
    };
    if number == 1 || number == 2 {
        return (number, Vec::new());
    }
    let e = evaluation(call, rows);
    let shift = first(&out[0], n);
    let asked = rust::asked(&e, &first(&call.inputs[1], n), number, &shift);
    (number, asked)
}

fn archive_cut(call: &Call, out: &mut [Vec<f64>], _marks: &mut [bool]) -> (u64, Vec<u64>) {
    let delta = &mut out[0];
    let radius = archive_scalar(call.scalars[0]);
    let number = unsafe { run_c::run_cut(call.n, radius, delta.as_mut_ptr(), delta.len()) };
    (number, Vec::new())
}

fn archive_update_curvature(
    call: &Call,
    out: &mut [Vec<f64>],
    _marks: &mut [bool],
) -> (u64, Vec<u64>) {
    let (n, m, s) = (call.n, call.m, call.s);
    let [step, rows, next, lambda] = &call.inputs[..] else {
        panic!("four slices")
    };
    let number = unsafe {
        run_c::run_update_curvature(
            n,
            m,
            s,
            out[0].as_mut_ptr(),
            out[0].len(),
            step.as_ptr(),
            step.len(),
            rows.as_ptr(),
            rows.len(),
            call.next_m,
            next.as_ptr(),
            next.len(),
            lambda.as_ptr(),
            lambda.len(),
        )
    };
    (number, Vec::new())
}

fn archive_step(call: &Call, out: &mut [Vec<f64>], marks: &mut [bool]) -> (u64, Vec<u64>) {
    let (n, m, s) = (call.n, call.m, call.s);
    let (rows, b) = (&call.inputs[0], &call.inputs[1]);
    let [delta, lambda] = out else {
        panic!("two slices")
    };
    let stepped = unsafe {
        run_c::run_step(
            n,
            m,
            s,
            rows.as_ptr(),
            rows.len(),
            b.as_ptr(),
            b.len(),
            marks.as_ptr(),
            marks.len(),
            archive_scalar(call.scalars[0]),
            delta.as_mut_ptr(),
            delta.len(),
            lambda.as_mut_ptr(),
            lambda.len(),
        )
    };
    (
        stepped.number,
        vec![u64::from(stepped.found), stepped.independent as u64],
    )
}

fn archive_learned(call: &Call, _out: &mut [Vec<f64>], _marks: &mut [bool]) -> (u64, Vec<u64>) {
    let b = &call.inputs[0];
    held(unsafe { run_c::run_learned(call.n, b.as_ptr(), b.len()) })
}

fn shape(inputs: &[usize], marks: usize, out: &[usize]) -> Shape {
    Shape {
        inputs: inputs.to_vec(),
        marks,
        out: out.to_vec(),
    }
}

pub static PIECES: [Piece; 12] = [
    Piece {
        name: "squared",
        code: 1,
        value: 2,
        shape: |n, m, s| shape(&[row_numbers(n, m, s), POINT], 0, &[]),
        draw: problems::for_squared,
        rust: rust_squared,
        rattle: archive_squared,
        says: |_, _| "",
    },
    Piece {
        name: "predicted",
        code: 2,
        value: 2,
        shape: |n, m, s| shape(&[row_numbers(n, m, s), POINT], 0, &[]),
        draw: problems::for_predicted,
        rust: rust_predicted,
        rattle: archive_predicted,
        says: |_, _| "",
    },
    Piece {
        name: "transposed",
        code: 3,
        value: 0,
        shape: |n, m, s| shape(&[row_numbers(n, m, s), 2 * RESIDUALS], 0, &[POINT]),
        draw: problems::for_transposed,
        rust: rust_transposed,
        rattle: archive_transposed,
        says: |_, _| "",
    },
    Piece {
        name: "moving",
        code: 4,
        value: 0,
        shape: |n, m, s| shape(&[row_numbers(n, m, s)], VARIABLES, &[]),
        draw: problems::for_moving,
        rust: rust_moving,
        rattle: archive_moving,
        says: |_, _| "",
    },
    Piece {
        name: "judge",
        code: 5,
        value: 5,
        shape: |n, m, s| {
            let rows = row_numbers(n, m, s);
            shape(&[rows, rows, 4 * PAIRS, POINT], 0, &[])
        },
        draw: problems::for_judge,
        rust: rust_judge,
        rattle: archive_judge,
        says: |_, reply| match reply.value[2..] {
            [1, ..] => "lower",
            [_, 1, 1] => "undecided and contracting",
            [_, 1, _] => "undecided",
            _ => "not lower",
        },
    },
    Piece {
        name: "expects",
        code: 6,
        value: 1,
        shape: |n, m, s| shape(&[row_numbers(n, m, s), CURVATURE, POINT], 0, &[]),
        draw: problems::for_expects,
        rust: rust_expects,
        rattle: archive_expects,
        says: |_, reply| ["no drop", "drop"][reply.value[0] as usize],
    },
    Piece {
        name: "along",
        code: 7,
        value: 0,
        shape: |n, m, s| shape(&[row_numbers(n, m, s), POINT], 0, &[2 * n]),
        draw: problems::for_along,
        rust: rust_along,
        rattle: archive_along,
        says: |_, _| "",
    },
    Piece {
        name: "shift",
        code: 8,
        value: 0,
        // The second slice is the point that `corrected` begins at, which the piece does not take.
        shape: |n, m, s| shape(&[row_numbers(n, m, s)], VARIABLES, &[POINT]),
        draw: problems::for_shift,
        rust: rust_shift,
        rattle: archive_shift,
        says: |_, reply| {
            if reply.value.is_empty() {
                "asks nothing"
            } else {
                "asks"
            }
        },
    },
    Piece {
        name: "cut",
        code: 12,
        value: 0,
        shape: |_, _, _| shape(&[], 0, &[POINT]),
        draw: problems::for_cut,
        rust: rust_cut,
        rattle: archive_cut,
        says: |call, reply| {
            if reply.out == words(&call.out[0]) {
                "as it was"
            } else {
                "cut"
            }
        },
    },
    Piece {
        name: "update_curvature",
        code: 9,
        value: 0,
        shape: |n, m, s| {
            let rows = row_numbers(n, m, s);
            shape(&[POINT, rows, rows, POINT], 0, &[CURVATURE])
        },
        draw: problems::for_update_curvature,
        rust: rust_update_curvature,
        rattle: archive_update_curvature,
        says: |call, reply| {
            if reply.out == words(&call.out[0]) {
                "as it was"
            } else {
                "updated"
            }
        },
    },
    Piece {
        name: "step",
        code: 11,
        value: 2,
        shape: |n, m, s| {
            shape(
                &[row_numbers(n, m, s), CURVATURE],
                VARIABLES,
                &[POINT, POINT],
            )
        },
        draw: problems::for_step,
        rust: rust_step,
        rattle: archive_step,
        says: |_, reply| ["not positive", "found"][reply.value[0] as usize],
    },
    Piece {
        name: "learned",
        code: 10,
        value: 1,
        shape: |_, _, _| shape(&[CURVATURE], 0, &[]),
        draw: problems::for_learned,
        rust: rust_learned,
        rattle: archive_learned,
        says: |_, reply| ["not learned", "learned"][reply.value[0] as usize],
    },
];
