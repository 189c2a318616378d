//! The functions of `linear` compared. A call has its counts and its slices, flat, two numbers for each scalar.

use crate::archive;
use crate::interval::functions::number_of;
use crate::interval::operands::Random;
use crate::linear::matrices;
use crate::words::{word, words};
use geop_core_math::geop_error::{GeopError, GeopResult};
use geop_core_math::scalars::Scalar;
use geop_core_math::solvers::{least_squares as solver, linear};

/// The greatest count of rows or columns.
pub const LIMIT: usize = 24;

#[derive(Clone)]
pub struct Call {
    /// The rows, and the columns; a function of one count takes `n`.
    pub m: usize,
    pub n: usize,
    pub inputs: Vec<Vec<f64>>,
    /// What `solve_cholesky` reads, and what stands before `cholesky` in the slice that it writes.
    pub marks: Vec<bool>,
}

/// The refusal's number or 0, what the output and the marks are then, and whether the inputs are as they were.
#[derive(PartialEq, Eq)]
pub struct Reply {
    pub number: u64,
    pub out: Vec<u64>,
    pub marks: Vec<bool>,
    pub kept: bool,
}

/// How many there are of something: one, the rows or the columns.
#[derive(Clone, Copy, PartialEq, Eq)]
pub enum Axis {
    One,
    Rows,
    Columns,
}

use Axis::{Columns, One, Rows};

/// The lengths of a call's slices.
pub struct Shape {
    pub inputs: Vec<usize>,
    pub marks: usize,
    pub out: usize,
}

pub struct Function {
    pub name: &'static str,
    /// How the list of answers names it.
    pub code: u64,
    /// How many counts it takes.
    pub counts: usize,
    /// Whether its output is a value and no slice of the caller's.
    pub gives_value: bool,
    /// The lists and matrices that it reads, whether it has a mark for each column, and what it gives.
    pub inputs: &'static [[Axis; 2]],
    pub marks: bool,
    pub out: [Axis; 2],
    pub draw: fn(&mut Random, usize, usize) -> Call,
    pub rust: fn(&Call) -> Reply,
    pub rattle: fn(&Call, &mut [f64], &mut [bool]) -> u64,
}

impl Function {
    pub fn shape(&self, m: usize, n: usize) -> Shape {
        let size = |axis: Axis| match axis {
            One => 1,
            Rows => m,
            Columns => n,
        };
        let numbers = |axes: &[Axis; 2]| 2 * size(axes[0]) * size(axes[1]);
        Shape {
            inputs: self.inputs.iter().map(numbers).collect(),
            marks: if self.marks { n } else { 0 },
            out: numbers(&self.out),
        }
    }

    /// The archive's reply to a call, with what the output holds before it.
    pub fn replied(&self, call: &Call, mut out: Vec<f64>) -> Reply {
        let lent = call.clone();
        let mut marks = call.marks.clone();
        let number = (self.rattle)(&lent, &mut out, &mut marks);
        Reply {
            number,
            out: words(&out),
            marks,
            kept: bits(&lent.inputs) == bits(&call.inputs),
        }
    }
}

fn bits(inputs: &[Vec<f64>]) -> Vec<u64> {
    inputs.iter().flatten().map(|x| x.to_bits()).collect()
}

// ---- the Rust

fn scalars(flat: &[f64]) -> Vec<Scalar> {
    flat.chunks_exact(2)
        .map(|ends| Scalar {
            lo: ends[0],
            hi: ends[1],
        })
        .collect()
}

pub fn rows(flat: &[f64], m: usize, n: usize) -> Vec<Vec<Scalar>> {
    (0..m)
        .map(|i| scalars(&flat[2 * i * n..2 * (i + 1) * n]))
        .collect()
}

fn flat(scalars: &[Scalar]) -> Vec<u64> {
    scalars
        .iter()
        .flat_map(|x| [word(x.lo), word(x.hi)])
        .collect()
}

fn reply(out: &[Scalar], marks: Vec<bool>) -> Reply {
    Reply {
        number: 0,
        out: flat(out),
        marks,
        kept: true,
    }
}

/// A refusal leaves the output +0.
fn refusal(error: &GeopError, out: usize, marks: Vec<bool>) -> Reply {
    Reply {
        number: number_of(error),
        out: vec![0; out],
        marks,
        kept: true,
    }
}

fn reply_of(call: &Call, out: usize, result: GeopResult<Vec<Scalar>>) -> Reply {
    let marks = call.marks.clone();
    match result {
        Ok(scalars) => reply(&scalars, marks),
        Err(error) => refusal(&error, out, marks),
    }
}

fn factor(call: &Call) -> Reply {
    let n = call.n;
    match linear::cholesky(&rows(&call.inputs[0], n, n)) {
        Ok((l, left_out)) => reply(&l.concat(), left_out),
        Err(error) => refusal(&error, 2 * n * n, vec![false; n]),
    }
}

fn solved(call: &Call) -> Reply {
    let l = rows(&call.inputs[0], call.n, call.n);
    let x = linear::solve_cholesky(&l, &call.marks, &scalars(&call.inputs[1]));
    reply_of(call, 2 * call.n, x)
}

/// With no rows the Rust gives an empty list, for it counts the columns by the first row. Here each column is +0.
fn squares(call: &Call) -> Reply {
    let (m, r) = (call.m, call.n);
    let y = if m == 0 {
        Ok(vec![Scalar::ZERO; r])
    } else {
        solver::least_squares(rows(&call.inputs[0], m, r), scalars(&call.inputs[1]))
    };
    reply_of(call, 2 * r, y)
}

fn minus(call: &Call) -> Reply {
    let jc = rows(&call.inputs[0], call.m, call.n);
    let values = solver::minus_solved(&jc, &scalars(&call.inputs[1]), &scalars(&call.inputs[2]));
    reply_of(call, 2 * call.n, values)
}

// ---- the archive: a pointer and its count are those of one slice

fn value(answer: archive::ScalarResult, out: &mut [f64]) -> u64 {
    out[0] = answer.value.lo;
    out[1] = answer.value.hi;
    answer.number
}

fn archive_dot(call: &Call, out: &mut [f64], _marks: &mut [bool]) -> u64 {
    let (a, b) = (&call.inputs[0], &call.inputs[1]);
    value(
        unsafe { archive::yadzvego_linear_dot(call.n, a.as_ptr(), a.len(), b.as_ptr(), b.len()) },
        out,
    )
}

fn archive_norm(call: &Call, out: &mut [f64], _marks: &mut [bool]) -> u64 {
    let v = &call.inputs[0];
    value(
        unsafe { archive::yadzvego_linear_norm(call.n, v.as_ptr(), v.len()) },
        out,
    )
}

fn archive_choose(call: &Call, out: &mut [f64], _marks: &mut [bool]) -> u64 {
    let value = archive::yadzvego_linear_choose(archive::Scalar {
        lo: call.inputs[0][0],
        hi: call.inputs[0][1],
    });
    out.copy_from_slice(&[value.lo, value.hi]);
    0
}

fn archive_sharp(call: &Call, out: &mut [f64], _marks: &mut [bool]) -> u64 {
    let v = &call.inputs[0];
    unsafe {
        archive::yadzvego_linear_sharp(call.n, v.as_ptr(), v.len(), out.as_mut_ptr(), out.len())
    }
}

fn archive_cholesky(call: &Call, out: &mut [f64], marks: &mut [bool]) -> u64 {
    let a = &call.inputs[0];
    unsafe {
        archive::yadzvego_linear_cholesky(
            call.n,
            a.as_ptr(),
            a.len(),
            out.as_mut_ptr(),
            out.len(),
            marks.as_mut_ptr(),
            marks.len(),
        )
    }
}

fn archive_solve_cholesky(call: &Call, out: &mut [f64], marks: &mut [bool]) -> u64 {
    let (l, b) = (&call.inputs[0], &call.inputs[1]);
    unsafe {
        archive::yadzvego_linear_solve_cholesky(
            call.n,
            l.as_ptr(),
            l.len(),
            marks.as_ptr(),
            marks.len(),
            b.as_ptr(),
            b.len(),
            out.as_mut_ptr(),
            out.len(),
        )
    }
}

fn archive_least_squares(call: &Call, out: &mut [f64], _marks: &mut [bool]) -> u64 {
    let (rows, rhs) = (&call.inputs[0], &call.inputs[1]);
    unsafe {
        archive::yadzvego_linear_least_squares(
            call.m,
            call.n,
            rows.as_ptr(),
            rows.len(),
            rhs.as_ptr(),
            rhs.len(),
            out.as_mut_ptr(),
            out.len(),
        )
    }
}

fn archive_minus_solved(call: &Call, out: &mut [f64], _marks: &mut [bool]) -> u64 {
    let (jc, rhs, from) = (&call.inputs[0], &call.inputs[1], &call.inputs[2]);
    unsafe {
        archive::yadzvego_linear_minus_solved(
            call.m,
            call.n,
            jc.as_ptr(),
            jc.len(),
            rhs.as_ptr(),
            rhs.len(),
            from.as_ptr(),
            from.len(),
            out.as_mut_ptr(),
            out.len(),
        )
    }
}

pub const FUNCTIONS: [Function; 8] = [
    Function {
        name: "dot",
        code: 1,
        counts: 1,
        gives_value: true,
        inputs: &[[One, Columns], [One, Columns]],
        marks: false,
        out: [One, One],
        draw: matrices::for_dot,
        rust: |call| {
            let sum = solver::dot(&scalars(&call.inputs[0]), &scalars(&call.inputs[1]));
            reply_of(call, 2, Ok(vec![sum]))
        },
        rattle: archive_dot,
    },
    Function {
        name: "norm",
        code: 2,
        counts: 1,
        gives_value: true,
        inputs: &[[One, Columns]],
        marks: false,
        out: [One, One],
        draw: matrices::for_list,
        rust: |call| {
            reply_of(
                call,
                2,
                solver::norm(&scalars(&call.inputs[0])).map(|x| vec![x]),
            )
        },
        rattle: archive_norm,
    },
    Function {
        name: "choose",
        code: 3,
        counts: 0,
        gives_value: true,
        inputs: &[[One, One]],
        marks: false,
        out: [One, One],
        draw: matrices::for_choose,
        rust: |call| {
            reply_of(
                call,
                2,
                Ok(vec![solver::choose(scalars(&call.inputs[0])[0])]),
            )
        },
        rattle: archive_choose,
    },
    Function {
        name: "sharp",
        code: 4,
        counts: 1,
        gives_value: false,
        inputs: &[[One, Columns]],
        marks: false,
        out: [One, Columns],
        draw: matrices::for_list,
        rust: |call| {
            reply_of(
                call,
                2 * call.n,
                Ok(solver::sharp(&scalars(&call.inputs[0]))),
            )
        },
        rattle: archive_sharp,
    },
    Function {
        name: "cholesky",
        code: 5,
        counts: 1,
        gives_value: false,
        inputs: &[[Columns, Columns]],
        marks: true,
        out: [Columns, Columns],
        draw: matrices::for_cholesky,
        rust: factor,
        rattle: archive_cholesky,
    },
    Function {
        name: "solve_cholesky",
        code: 6,
        counts: 1,
        gives_value: false,
        inputs: &[[Columns, Columns], [One, Columns]],
        marks: true,
        out: [One, Columns],
        draw: matrices::for_solve,
        rust: solved,
        rattle: archive_solve_cholesky,
    },
    Function {
        name: "least_squares",
        code: 7,
        counts: 2,
        gives_value: false,
        inputs: &[[Rows, Columns], [One, Rows]],
        marks: false,
        out: [One, Columns],
        draw: matrices::for_least_squares,
        rust: squares,
        rattle: archive_least_squares,
    },
    Function {
        name: "minus_solved",
        code: 8,
        counts: 2,
        gives_value: false,
        inputs: &[[Rows, Columns], [One, Rows], [One, Columns]],
        marks: false,
        out: [One, Columns],
        draw: matrices::for_minus_solved,
        rust: minus,
        rattle: archive_minus_solved,
    },
];
