//! Scalars: ordinary operands, one call after another by the same interface for C, so that neither side is inlined.

use super::{Task, mixed, timed};
use crate::archive::{self, Scalar, ScalarResult};
use crate::interval::functions::number_of;
use crate::interval::operands::Random;
use geop_core_math::geop_error::GeopResult;
use geop_core_math::scalars;
use std::hint::black_box;
use std::rc::Rc;

const OPERANDS: usize = 1024;

type Binary = extern "C" fn(Scalar, Scalar) -> Scalar;
type Quotient = extern "C" fn(Scalar, Scalar) -> ScalarResult;
type Root = extern "C" fn(Scalar) -> ScalarResult;

fn rust(x: Scalar) -> scalars::Scalar {
    scalars::Scalar { lo: x.lo, hi: x.hi }
}

fn plain(x: scalars::Scalar) -> Scalar {
    Scalar { lo: x.lo, hi: x.hi }
}

fn answer(result: GeopResult<scalars::Scalar>) -> ScalarResult {
    match result {
        Ok(value) => ScalarResult {
            number: 0,
            value: plain(value),
        },
        Err(error) => ScalarResult {
            number: number_of(&error),
            value: Scalar { lo: 0.0, hi: 0.0 },
        },
    }
}

extern "C" fn rust_add(x: Scalar, y: Scalar) -> Scalar {
    plain(rust(x).add(rust(y)))
}

extern "C" fn rust_sub(x: Scalar, y: Scalar) -> Scalar {
    plain(rust(x).sub(rust(y)))
}

extern "C" fn rust_mul(x: Scalar, y: Scalar) -> Scalar {
    plain(rust(x).mul(rust(y)))
}

extern "C" fn rust_div(x: Scalar, y: Scalar) -> ScalarResult {
    answer(rust(x).div(rust(y)))
}

extern "C" fn rust_sqrt(x: Scalar) -> ScalarResult {
    answer(rust(x).sqrt())
}

fn folded(sum: u64, x: Scalar) -> u64 {
    sum ^ x.lo.to_bits() ^ x.hi.to_bits().rotate_left(1)
}

/// Intervals about numbers of both signs from 1/8 to 8, of several widths; sharp ones among them.
fn operands(random: &mut Random) -> Vec<Scalar> {
    (0..OPERANDS)
        .map(|_| {
            let x = random.sized(-3, 3);
            let half = if random.at_odds(4) {
                0.0
            } else {
                x.abs() * random.sized(-50, -2).abs()
            };
            Scalar {
                lo: x - half,
                hi: x + half,
            }
        })
        .collect()
}

fn sizes(operands: &[Scalar]) -> Vec<Scalar> {
    let positive = |x: &Scalar| {
        if x.hi > 0.0 {
            *x
        } else {
            Scalar {
                lo: -x.hi,
                hi: -x.lo,
            }
        }
    };
    operands.iter().map(positive).collect()
}

fn task<'a>(name: &str, goal: Option<f64>, work: [Box<dyn FnMut() -> u64 + 'a>; 2]) -> Task<'a> {
    Task {
        name: name.to_string(),
        times: OPERANDS,
        goal,
        parts: vec![work.map(timed)],
    }
}

pub fn tasks() -> Vec<Task<'static>> {
    let mut random = Random::new(1);
    let (xs, ys) = (operands(&mut random), operands(&mut random));
    let sizes: Rc<[Scalar]> = sizes(&xs).into();
    let pairs: Rc<[(Scalar, Scalar)]> = xs.into_iter().zip(ys).collect();
    let binary = |by: Binary| {
        let pairs = Rc::clone(&pairs);
        let by = black_box(by);
        Box::new(move || pairs.iter().fold(0, |sum, &(x, y)| folded(sum, by(x, y))))
            as Box<dyn FnMut() -> u64>
    };
    let quotient = |by: Quotient| {
        let pairs = Rc::clone(&pairs);
        let by = black_box(by);
        Box::new(move || {
            pairs.iter().fold(0, |sum, &(x, y)| {
                let answer = by(x, y);
                mixed(folded(sum, answer.value), answer.number)
            })
        }) as Box<dyn FnMut() -> u64>
    };
    let root = |by: Root| {
        let sizes = Rc::clone(&sizes);
        let by = black_box(by);
        Box::new(move || {
            sizes.iter().fold(0, |sum, &x| {
                let answer = by(x);
                mixed(folded(sum, answer.value), answer.number)
            })
        }) as Box<dyn FnMut() -> u64>
    };
    vec![
        task(
            "add",
            Some(0.75),
            [binary(rust_add), binary(archive::yadzvego_interval_add)],
        ),
        task(
            "sub",
            None,
            [binary(rust_sub), binary(archive::yadzvego_interval_sub)],
        ),
        task(
            "mul",
            Some(1.15),
            [binary(rust_mul), binary(archive::yadzvego_interval_mul)],
        ),
        task(
            "div",
            Some(0.75),
            [quotient(rust_div), quotient(archive::yadzvego_interval_div)],
        ),
        task(
            "sqrt",
            Some(9.0),
            [root(rust_sqrt), root(archive::yadzvego_interval_sqrt)],
        ),
    ]
}
