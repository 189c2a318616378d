//! What the Rust writes inside `minimize` and `corrected`, from its own functions, word by word; and what `corrected`
//! asks.

use crate::interval::functions::number_of;
use crate::words::words;
use geop_core_math::geop_error::GeopResult;
use geop_core_math::scalars::Scalar;
use geop_core_math::solvers::least_squares::{
    Euclidean, Evaluation, Space, choose, corrected, dot, minus_solved, norm, sharp,
};
use std::cell::RefCell;
use std::future::Future;
use std::pin::pin;
use std::task::{Context, Poll, Waker};

use crate::run::pieces::flat;

/// `minimize`'s `moving`.
pub fn moving(e: &Evaluation, n: usize) -> Vec<bool> {
    (0..n)
        .map(|i| {
            e.sum
                .jacobian
                .iter()
                .chain(&e.constraints.jacobian)
                .any(|row| row[i].definitely_not_equal(Scalar::ZERO))
        })
        .collect()
}

/// `minimize`'s closure `expects`.
pub fn expects(
    e: &Evaluation,
    curvature: &[Vec<Scalar>],
    f: Scalar,
    theta: Scalar,
    delta: &[Scalar],
) -> GeopResult<bool> {
    let n = delta.len();
    let bent = (0..n).fold(Scalar::ZERO, |sum, i| {
        sum.add(delta[i].mul(dot(&curvature[i], delta)))
    });
    Ok(f.sub(e.sum.squared(delta))
        .sub(bent)
        .definitely_greater(Scalar::ZERO)
        || theta
            .sub(norm(&e.constraints.linearized(delta))?)
            .definitely_greater(Scalar::ZERO))
}

/// `minimize`'s cut to the radius.
pub fn cut(delta: &[Scalar], radius: Scalar) -> GeopResult<Vec<Scalar>> {
    let mut delta = delta.to_vec();
    let length = norm(&delta)?;
    if length.definitely_greater(radius) {
        let shrink = radius.div(length)?;
        delta.iter_mut().for_each(|d| *d = choose(d.mul(shrink)));
    }
    Ok(delta)
}

/// `corrected`'s `d`.
pub fn shift(e: &Evaluation, moving: &[bool], n: usize) -> GeopResult<Vec<Scalar>> {
    let jc: Vec<Vec<Scalar>> = e
        .constraints
        .jacobian
        .iter()
        .map(|row| {
            row.iter()
                .zip(moving)
                .map(|(&v, &m)| if m { choose(v) } else { Scalar::ZERO })
                .collect()
        })
        .collect();
    let zero = vec![Scalar::ZERO; n];
    Ok(
        (minus_solved(&jc, &sharp(&e.constraints.values), &zero)?.into_iter())
            .map(Scalar::sharpen)
            .collect(),
    )
}

/// What a future gives, or nothing where it waits.
pub fn polled<T>(future: impl Future<Output = T>) -> Option<T> {
    match pin!(future).poll(&mut Context::from_waker(Waker::noop())) {
        Poll::Ready(value) => Some(value),
        Poll::Pending => None,
    }
}

/// What one gives that never waits.
pub fn finished<T>(future: impl Future<Output = T>) -> T {
    polled(future).expect("nothing here waits")
}

/// The point that `corrected` asks for first, from x, or its refusal's number; nothing where it asks for none.
pub fn corrected_asks(e: &Evaluation, moving: &[bool], x: &[Scalar]) -> Vec<u64> {
    let asked = RefCell::new(Vec::new());
    let evaluate = async |point: &Vec<Scalar>| -> Option<Evaluation> {
        *asked.borrow_mut() = words(&flat(point));
        None
    };
    let below = Scalar::ZERO.sub(Scalar::ONE);
    let taken = vec![Scalar::ZERO; x.len()];
    let end = finished(corrected(
        &Euclidean,
        &evaluate,
        moving,
        below,
        x.to_vec(),
        e.clone(),
        taken,
    ));
    match end {
        Ok(_) => asked.into_inner(),
        Err(error) => vec![number_of(&error)],
    }
}

/// The same with a shift that was worked out, or refused with a number.
pub fn asked(e: &Evaluation, x: &[Scalar], number: u64, shift: &[Scalar]) -> Vec<u64> {
    let below = Scalar::ZERO.sub(Scalar::ONE);
    match norm(&e.constraints.values) {
        Ok(violation) if !violation.definitely_greater(below) => return Vec::new(),
        Ok(_) => {}
        Err(error) => return vec![number_of(&error)],
    }
    if number != 0 {
        return vec![number];
    }
    let x = x.to_vec();
    match Euclidean.step(&x, shift) {
        Some(next) if shift.iter().all(|v| v.is_finite()) && !Euclidean.same(&next, &x) => {
            words(&flat(&next))
        }
        _ => Vec::new(),
    }
}
