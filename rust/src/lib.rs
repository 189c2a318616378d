//! Least squares under constraints over interval ends, as the proved archive libyadzvego.a settles them.
//!
//! [`begin`], [`reply`], [`reply_none`] and [`point`] are the archive's calls: the caller owns the run and the area,
//! and hands both on from call to call. [`minimize`] makes a whole run of them, and [`sheets::settle`] that of a text
//! which describes points and the rules between them; [`sheets::spell`] has the one spelling of such a text. The module
//! [`solvers::least_squares`] has the names and shapes of geop's module of that name, with its `minimize` by `await`,
//! and [`scalars`] those of its `Scalar`, so that a caller of geop's changes the crate that it imports.
//! docs/DIFFERENCES.md names what cannot be the same.
//!
//! ```
//! use yadzvego::scalars::Scalar;
//! use yadzvego::solvers::least_squares::{Evaluation, Options, Stop};
//!
//! // The point of the circle x x + y y = 25 that is nearest to (6, 0).
//! let evaluate = |at: &Vec<Scalar>| {
//!     let (x, y) = (at[0], at[1]);
//!     let mut e = Evaluation::default();
//!     let circle = x.mul(x).add(y.mul(y)).sub(Scalar::from_i64(25));
//!     e.constraints.push(circle, vec![Scalar::TWO.mul(x), Scalar::TWO.mul(y)]);
//!     e.sum.push(x.sub(Scalar::from_i64(6)), vec![Scalar::ONE, Scalar::ZERO]);
//!     e.sum.push(y, vec![Scalar::ZERO, Scalar::ONE]);
//!     Some(e)
//! };
//! let options = Options { max_iterations: 60, max_step: Scalar::from_i64(5) };
//! let start = vec![Scalar::from_i64(3), Scalar::from_i64(4)];
//! let outcome = yadzvego::minimize(evaluate, start, options)?;
//! assert!((outcome.x[0].to_f64() - 5.0).abs() < 1e-6);
//! assert_ne!(outcome.stop, Stop::Budget);
//! # Ok::<(), yadzvego::geop_error::GeopError>(())
//! ```

#![warn(missing_docs)]

#[allow(dead_code, reason = "it declares all of the header")]
mod archive;
mod calls;
pub mod geop_error;
pub mod scalars;
pub mod sheets;
pub mod slopes;
pub mod solvers;

pub use calls::{AREA, Event, Kind, Returned, Run, begin, point, reply, reply_none};

use crate::geop_error::GeopResult;
use crate::scalars::Scalar;
use crate::solvers::least_squares::{self, Euclidean, Evaluation, Options, Outcome};
use std::pin::pin;
use std::task::{Context, Poll, Waker};

/// [`least_squares::minimize`] with evaluations that are made on the spot.
///
/// ```
/// use yadzvego::scalars::Scalar;
/// use yadzvego::solvers::least_squares::{Evaluation, Options};
///
/// // The least of (x - 2)² is at 2.
/// let evaluate = |at: &Vec<Scalar>| {
///     let mut e = Evaluation::default();
///     e.sum.push(at[0].sub(Scalar::TWO), vec![Scalar::ONE]);
///     Some(e)
/// };
/// let options = Options { max_iterations: 20, max_step: Scalar::from_i64(10) };
/// let outcome = yadzvego::minimize(evaluate, vec![Scalar::from_i64(7)], options)?;
/// assert!((outcome.x[0].to_f64() - 2.0).abs() < 1e-9);
/// # Ok::<(), yadzvego::geop_error::GeopError>(())
/// ```
pub fn minimize(
    evaluate: impl Fn(&Vec<Scalar>) -> Option<Evaluation>,
    start: Vec<Scalar>,
    options: Options,
) -> GeopResult<Outcome<Vec<Scalar>>> {
    let evaluate = async |x: &Vec<Scalar>| evaluate(x);
    let run = pin!(least_squares::minimize(
        &Euclidean, evaluate, start, options
    ));
    match run.poll(&mut Context::from_waker(Waker::noop())) {
        Poll::Ready(outcome) => outcome,
        Poll::Pending => unreachable!("no evaluation waits"),
    }
}
