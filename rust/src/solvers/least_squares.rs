//! `minimize` with the names and shapes of geop's module of this name, over the calls of the archive.

use crate::calls::{self, AREA, Event, Returned, Run, begin, point};
use crate::geop_error::{GeopError, GeopResult};
use crate::scalars::Scalar;

/// The most constraints of an evaluation.
const CONSTRAINTS: usize = 12;

/// How long [`minimize`] may try, and how far a step may go.
#[derive(Clone, Copy, Debug)]
pub struct Options {
    /// Steps taken at most, to 200.
    pub max_iterations: usize,
    /// The longest step, but where the steps before landed as their linearization said.
    pub max_step: Scalar,
}

/// Where [`minimize`] ended, and how it got there.
#[derive(Clone, Debug)]
pub struct Outcome<P> {
    /// The point that stands.
    pub x: P,
    /// Steps taken.
    pub iterations: usize,
    /// Why it ended.
    pub stop: Stop,
    /// Steps proposed and turned down on the way.
    pub turned_down: usize,
}

/// Why [`minimize`] stopped where it did.
#[derive(Clone, Copy, Debug, PartialEq, Eq)]
pub enum Stop {
    /// The residuals cannot be evaluated at the start.
    Infeasible,
    /// The next step changes no variable at all; the step before it was turned down for `rejected`.
    NoChange {
        /// Why the last proposal was rejected, if one was.
        rejected: Option<Rejection>,
    },
    /// No change can be told from its width, and the step no longer shrinks.
    Undecided,
    /// The model expects no definite drop, with `independent` of the `constraints` rows telling it something new.
    Flat {
        /// How many constraint rows are independent.
        independent: usize,
        /// Of how many that the evaluation of the standing point has.
        constraints: usize,
    },
    /// No step, however damped, is taken; the last one was turned down for `rejected`.
    Damped {
        /// Why the last proposal was rejected, if one was.
        rejected: Option<Rejection>,
    },
    /// [`Options::max_iterations`] steps were taken.
    Budget,
}

/// Why a step was turned down.
#[derive(Clone, Copy, Debug, PartialEq, Eq)]
pub enum Rejection {
    /// The damped model's curvature is not positive.
    NotPositive,
    /// The residuals cannot be evaluated where it leads.
    Infeasible,
    /// Cut so short that the model cannot tell it from no step.
    Unresolved,
    /// Neither the sum nor the violation is definitely lower there than at every point taken before.
    NotLower,
}

/// The variables themselves, as points: a step is added to them.
pub struct Euclidean;

/// Residuals, and their Jacobian row by row.
#[derive(Clone, Debug, Default)]
pub struct Rows {
    /// The values, one for each row.
    pub values: Vec<Scalar>,
    /// The slopes of each row, one for each variable.
    pub jacobian: Vec<Vec<Scalar>>,
}

impl Rows {
    /// One row more.
    pub fn push(&mut self, value: Scalar, row: Vec<Scalar>) {
        self.values.push(value);
        self.jacobian.push(row);
    }

    /// `other`'s rows, after its own.
    pub fn append(&mut self, other: Rows) {
        self.values.extend(other.values);
        self.jacobian.extend(other.jacobian);
    }

    /// Whether there are `count` of them, each by `n` variables.
    fn fits(&self, count: usize, n: usize) -> bool {
        self.values.len() == count
            && self.jacobian.len() == count
            && self.jacobian.iter().all(|row| row.len() == n)
    }

    fn ends(&self) -> impl Iterator<Item = f64> {
        let all = self.values.iter().chain(self.jacobian.iter().flatten());
        all.flat_map(|v| [v.lo, v.hi])
    }
}

/// The residuals at a point: those that must vanish, and those whose squares are minimized.
#[derive(Clone, Debug, Default)]
pub struct Evaluation {
    /// Those that must vanish, to 12. Each point may have another number of them.
    pub constraints: Rows,
    /// Those whose squares are summed, to 24. Every point has as many as the start.
    pub sum: Rows,
}

fn scalars(ends: &[f64]) -> Vec<Scalar> {
    let scalar = |pair: &[f64]| Scalar::new(pair[0], pair[1]);
    ends.chunks_exact(2).map(scalar).collect()
}

/// Answers the open question with rows, or with none. The archive sees only how many ends there are altogether, so the
/// shape is tested here, and in its order: too many constraints are refused before any length.
fn reply(run: Run, area: &mut [f64], evaluation: Option<Evaluation>) -> GeopResult<Returned> {
    let Some(e) = evaluation else {
        return Ok(calls::reply_none(run, area));
    };
    let m = e.constraints.values.len();
    if m > CONSTRAINTS {
        return Err(GeopError::TooMany);
    }
    if !(e.constraints.fits(m, run.n) && e.sum.fits(run.s, run.n)) {
        return Err(GeopError::WrongLength);
    }
    let rows: Vec<f64> = e.constraints.ends().chain(e.sum.ends()).collect();
    Ok(calls::reply(run, area, m, &rows))
}

/// Minimizes the sum of squares among the points where the constraints vanish, from `x0`. Each evaluation has as many
/// sum rows as that of the start, and any number of constraints, since a stop is one only while the parts meet; a
/// refusal of the archive is an error. [`crate::minimize`] is the same with evaluations that are made on the spot.
pub async fn minimize(
    _space: &Euclidean,
    evaluate: impl AsyncFn(&Vec<Scalar>) -> Option<Evaluation>,
    x0: Vec<Scalar>,
    options: Options,
) -> GeopResult<Outcome<Vec<Scalar>>> {
    let (n, limit) = (x0.len(), options.max_iterations);
    let start: Vec<f64> = x0.iter().flat_map(|v| [v.lo, v.hi]).collect();
    let mut at_start = evaluate(&x0).await;
    let s = at_start.as_ref().map_or(0, |e| e.sum.values.len());
    let mut area = vec![0.0; AREA];
    let mut now = begin(n, s, limit, &start, options.max_step, &mut area);
    loop {
        let evaluation = match now.event {
            Event::Question { number: 0, .. } => at_start.take(),
            Event::Question { .. } => evaluate(&scalars(point(now.run, &area))).await,
            Event::Finish {
                stop,
                iterations,
                turned_down,
                ..
            } => {
                return Ok(Outcome {
                    x: scalars(point(now.run, &area)),
                    iterations,
                    stop,
                    turned_down,
                });
            }
            Event::Refused(why) => return Err(why),
        };
        now = reply(now.run, &mut area, evaluation)?;
    }
}
