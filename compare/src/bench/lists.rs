//! Lists and matrices: ordinary numbers, each side in its own layout, made before the clock starts. What the Rust
//! allocates for its results counts, since its functions do that.

use super::{Task, mixed, timed};
use crate::archive::{self, ScalarResult};
use crate::interval::operands::Random;
use crate::run::pieces::flat;
use geop_core_math::scalars::Scalar;
use geop_core_math::solvers::{least_squares as solver, linear};
use std::hint::black_box;

/// So many inputs of each size.
const INPUTS: usize = 16;

/// A list of n, or a matrix of m rows of n, in both layouts.
struct Matrix {
    rows: Vec<Vec<Scalar>>,
    flat: Vec<f64>,
}

impl Matrix {
    fn new(rows: Vec<Vec<Scalar>>) -> Matrix {
        let flat = rows.iter().flat_map(|row| flat(row)).collect();
        Matrix { rows, flat }
    }

    fn drawn(random: &mut Random, m: usize, n: usize) -> Matrix {
        let number = |random: &mut Random| {
            let x = random.sized(-3, 3);
            let half = x.abs() * random.sized(-50, -30).abs();
            Scalar {
                lo: x - half,
                hi: x + half,
            }
        };
        let mut row = |_| (0..n).map(|_| number(random)).collect();
        Matrix::new((0..m).map(&mut row).collect())
    }

    /// The products of its rows, and one more on the diagonal.
    fn gram(&self) -> Matrix {
        let product = |i: usize, j: usize| {
            let sum = solver::dot(&self.rows[i], &self.rows[j]);
            if i == j { sum.add(Scalar::ONE) } else { sum }
        };
        let m = self.rows.len();
        let row = |i| (0..m).map(|j| product(i, j)).collect();
        Matrix::new((0..m).map(row).collect())
    }
}

/// What the functions are given at one size.
struct Inputs {
    n: usize,
    a: Matrix,
    square: Matrix,
    symmetric: Matrix,
    factor: Matrix,
    left_out: Vec<bool>,
}

impl Inputs {
    fn drawn(random: &mut Random, n: usize) -> Inputs {
        let square = Matrix::drawn(random, n, n);
        let symmetric = square.gram();
        let (factor, left_out) = linear::cholesky(&symmetric.rows).expect("it is well conditioned");
        Inputs {
            n,
            a: Matrix::drawn(random, 2, n),
            square,
            symmetric,
            factor: Matrix::new(factor),
            left_out,
        }
    }

    fn list(&self, i: usize) -> &[f64] {
        &self.a.flat[2 * self.n * i..2 * self.n * (i + 1)]
    }
}

pub struct Lists(Vec<Vec<Inputs>>);

/// What the Rattle writes into, kept between calls.
struct Output {
    numbers: [f64; 1152],
    marks: [bool; 24],
}

fn words(sum: u64, numbers: &[f64]) -> u64 {
    numbers.iter().fold(sum, |sum, x| mixed(sum, x.to_bits()))
}

fn rust_words(sum: u64, list: &[Scalar]) -> u64 {
    list.iter().fold(sum, |sum, x| {
        mixed(mixed(sum, x.lo.to_bits()), x.hi.to_bits())
    })
}

fn value(sum: u64, answer: ScalarResult) -> u64 {
    words(sum, &[answer.value.lo, answer.value.hi])
}

// ---- one call of each side: the words of what it gives

fn rust_dot(sum: u64, x: &Inputs, _: &mut Output) -> u64 {
    rust_words(sum, &[solver::dot(&x.a.rows[0], &x.a.rows[1])])
}

fn rattle_dot(sum: u64, x: &Inputs, _: &mut Output) -> u64 {
    let (a, b) = (x.list(0), x.list(1));
    value(sum, unsafe {
        archive::yadzvego_linear_dot(x.n, a.as_ptr(), a.len(), b.as_ptr(), b.len())
    })
}

fn rust_norm(sum: u64, x: &Inputs, _: &mut Output) -> u64 {
    rust_words(sum, &[solver::norm(&x.a.rows[0]).expect("it has a root")])
}

fn rattle_norm(sum: u64, x: &Inputs, _: &mut Output) -> u64 {
    let v = x.list(0);
    value(sum, unsafe {
        archive::yadzvego_linear_norm(x.n, v.as_ptr(), v.len())
    })
}

fn rust_cholesky(sum: u64, x: &Inputs, _: &mut Output) -> u64 {
    let (l, _) = linear::cholesky(&x.symmetric.rows).expect("it has roots");
    // The corner alone, so that the words do not weigh more than the work.
    rust_words(sum, &l[x.n - 1][x.n - 1..])
}

fn rattle_cholesky(sum: u64, x: &Inputs, output: &mut Output) -> u64 {
    let (a, count) = (&x.symmetric.flat, 2 * x.n * x.n);
    unsafe {
        archive::yadzvego_linear_cholesky(
            x.n,
            a.as_ptr(),
            a.len(),
            output.numbers.as_mut_ptr(),
            count,
            output.marks.as_mut_ptr(),
            x.n,
        );
    }
    words(sum, &output.numbers[count - 2..count])
}

fn rust_solve(sum: u64, x: &Inputs, _: &mut Output) -> u64 {
    let solved = linear::solve_cholesky(&x.factor.rows, &x.left_out, &x.a.rows[0]);
    rust_words(sum, &solved.expect("it divides")[..1])
}

fn rattle_solve(sum: u64, x: &Inputs, output: &mut Output) -> u64 {
    let (l, b) = (&x.factor.flat, x.list(0));
    let (marks, out) = (x.left_out.as_ptr(), output.numbers.as_mut_ptr());
    unsafe {
        archive::yadzvego_linear_solve_cholesky(
            x.n,
            l.as_ptr(),
            l.len(),
            marks,
            x.n,
            b.as_ptr(),
            b.len(),
            out,
            2 * x.n,
        );
    }
    words(sum, &output.numbers[..2])
}

fn rust_minus_solved(sum: u64, x: &Inputs, _: &mut Output) -> u64 {
    let solved = solver::minus_solved(&x.square.rows, &x.a.rows[0], &x.a.rows[1]);
    rust_words(sum, &solved.expect("it has roots")[..1])
}

fn rattle_minus_solved(sum: u64, x: &Inputs, output: &mut Output) -> u64 {
    let (jc, rhs, from) = (&x.square.flat, x.list(0), x.list(1));
    let (j, r, f) = (jc.as_ptr(), rhs.as_ptr(), from.as_ptr());
    unsafe {
        archive::yadzvego_linear_minus_solved(
            x.n,
            x.n,
            j,
            jc.len(),
            r,
            rhs.len(),
            f,
            from.len(),
            output.numbers.as_mut_ptr(),
            2 * x.n,
        );
    }
    words(sum, &output.numbers[..2])
}

/// The rows are given away to the Rust: their copies are made before the clock starts.
fn rust_least_squares(inputs: &[Inputs]) -> (u64, std::time::Duration) {
    let given: Vec<_> = inputs
        .iter()
        .map(|x| (x.square.rows.clone(), x.a.rows[0].clone()))
        .collect();
    timed_once(move || {
        given.into_iter().fold(0, |sum, (rows, rhs)| {
            rust_words(
                sum,
                &solver::least_squares(rows, rhs).expect("it has roots")[..1],
            )
        })
    })
}

fn timed_once(work: impl FnOnce() -> u64) -> (u64, std::time::Duration) {
    let start = std::time::Instant::now();
    let sum = work();
    (sum, start.elapsed())
}

fn rattle_least_squares(sum: u64, x: &Inputs, output: &mut Output) -> u64 {
    let (rows, rhs) = (&x.square.flat, x.list(0));
    let out = output.numbers.as_mut_ptr();
    unsafe {
        archive::yadzvego_linear_least_squares(
            x.n,
            x.n,
            rows.as_ptr(),
            rows.len(),
            rhs.as_ptr(),
            rhs.len(),
            out,
            2 * x.n,
        );
    }
    words(sum, &output.numbers[..2])
}

type Side = fn(u64, &Inputs, &mut Output) -> u64;

fn by<'a>(inputs: &'a [Inputs], side: Side) -> super::Timed<'a> {
    let side = black_box(side);
    let mut output = Output {
        numbers: [0.0; 1152],
        marks: [false; 24],
    };
    timed(move || inputs.iter().fold(0, |sum, x| side(sum, x, &mut output)))
}

impl Lists {
    pub fn drawn() -> Lists {
        let mut random = Random::new(2);
        let of = |random: &mut Random, n| (0..INPUTS).map(|_| Inputs::drawn(random, n)).collect();
        Lists([12, 24].map(|n| of(&mut random, n)).into())
    }

    pub fn tasks(&self) -> Vec<Task<'_>> {
        // With the goals of 12 and of 24.
        let none = [None; 2];
        let both: [(&str, [Option<f64>; 2], [Side; 2]); 5] = [
            ("dot", [Some(0.7), Some(0.55)], [rust_dot, rattle_dot]),
            ("norm", none, [rust_norm, rattle_norm]),
            (
                "cholesky",
                [Some(0.55), Some(0.7)],
                [rust_cholesky, rattle_cholesky],
            ),
            ("solve_cholesky", none, [rust_solve, rattle_solve]),
            (
                "minus_solved",
                none,
                [rust_minus_solved, rattle_minus_solved],
            ),
        ];
        let mut tasks = Vec::new();
        for (size, inputs) in self.0.iter().enumerate() {
            let n = inputs[0].n;
            let task = |name: &str, goal, part| Task {
                name: format!("{name} of {n}"),
                times: INPUTS,
                goal,
                parts: vec![part],
            };
            for (name, goals, sides) in both {
                tasks.push(task(name, goals[size], sides.map(|side| by(inputs, side))));
            }
            let rust: super::Timed = Box::new(|| rust_least_squares(inputs));
            tasks.push(task(
                "least_squares",
                None,
                [rust, by(inputs, rattle_least_squares)],
            ));
        }
        tasks
    }
}
