//! A run by question and reply. Nothing is kept here: the caller has the run, a plain value, and lends the area.

pub use crate::archive::Run;
use crate::archive::{
    EventNumbers, ReturnedNumbers, yadzvego_begin, yadzvego_point_length, yadzvego_point_place,
    yadzvego_reply, yadzvego_reply_none,
};
use crate::geop_error::GeopError;
use crate::scalars::Scalar;
use crate::solvers::least_squares::{Rejection, Stop};

/// How many numbers an area has.
pub const AREA: usize = 8000;

/// What a question asks the rows of.
#[derive(Clone, Copy, Debug, PartialEq, Eq)]
pub enum Kind {
    /// The start.
    Start,
    /// A point that a step leads to.
    Trial,
    /// A trial moved back onto the constraints.
    Correction,
}

/// A question, the finish or a refusal. `standing` is the number of the question whose point stands.
#[derive(Clone, Copy, Debug, PartialEq, Eq)]
pub enum Event {
    /// The rows of the asked point are wanted.
    Question {
        /// From 0 on.
        number: usize,
        /// What is asked.
        kind: Kind,
        /// The number of the question whose point stands.
        standing: usize,
    },
    /// The run is over.
    Finish {
        /// Why.
        stop: Stop,
        /// Changes of standing.
        iterations: usize,
        /// Proposals that were rejected.
        turned_down: usize,
        /// The number of the question whose point stands.
        standing: usize,
    },
    /// Refused by a number; 5 and 6 end the run.
    Refused(GeopError),
}

/// What a call returns: the run after it, and the event. A reply that is refused by 1 to 4 returns the run as it was.
#[derive(Clone, Copy, Debug, PartialEq)]
pub struct Returned {
    /// For the next call.
    pub run: Run,
    /// What it is told.
    pub event: Event,
}

fn kind_of(number: u8) -> Kind {
    match number {
        0 => Kind::Start,
        1 => Kind::Trial,
        _ => Kind::Correction,
    }
}

fn rejection_of(number: u8) -> Option<Rejection> {
    match number {
        0 => None,
        1 => Some(Rejection::NotPositive),
        2 => Some(Rejection::Infeasible),
        3 => Some(Rejection::Unresolved),
        _ => Some(Rejection::NotLower),
    }
}

fn stop_of(e: &EventNumbers) -> Stop {
    let rejected = rejection_of(e.rejected);
    match e.stop {
        0 => Stop::Infeasible,
        1 => Stop::NoChange { rejected },
        2 => Stop::Undecided,
        3 => Stop::Flat {
            independent: e.independent,
            constraints: e.constraints,
        },
        4 => Stop::Damped { rejected },
        _ => Stop::Budget,
    }
}

fn event_of(e: &EventNumbers) -> Event {
    match e.which {
        0 => Event::Question {
            number: e.number,
            kind: kind_of(e.kind),
            standing: e.standing,
        },
        1 => Event::Finish {
            stop: stop_of(e),
            iterations: e.iterations,
            turned_down: e.turned_down,
            standing: e.standing,
        },
        _ => Event::Refused(GeopError::numbered(e.number)),
    }
}

fn returned_of(r: ReturnedNumbers) -> Returned {
    Returned {
        run: r.run,
        event: event_of(&r.event),
    }
}

/// Begins a run of `n` variables and `s` sum rows: its first question asks for the rows of `start`, which has 2 `n`
/// ends. The area has [`AREA`] numbers.
///
/// ```
/// use yadzvego::scalars::Scalar;
/// use yadzvego::{AREA, Event, begin, point, reply, reply_none};
///
/// // One variable x from 3 on, no constraint, and the sum row x - 1.
/// let mut area = vec![0.0; AREA];
/// let mut now = begin(1, 1, 20, &[3.0, 3.0], Scalar::from_i64(5), &mut area);
/// while let Event::Question { .. } = now.event {
///     let x = Scalar::new(point(now.run, &area)[0], point(now.run, &area)[1]);
///     let value = x.sub(Scalar::ONE);
///     let next = reply(now.run, &mut area, 0, &[value.lo, value.hi, 1.0, 1.0]);
///     now = match next.event {
///         // Rows outside the domain: the point cannot be evaluated.
///         Event::Refused(why) if why.number() == 3 => reply_none(now.run, &mut area),
///         _ => next,
///     };
/// }
/// assert!(matches!(now.event, Event::Finish { .. }));
/// assert!((point(now.run, &area)[0] - 1.0).abs() < 1e-9);
/// ```
pub fn begin(
    n: usize,
    s: usize,
    limit: usize,
    start: &[f64],
    max_step: Scalar,
    area: &mut [f64],
) -> Returned {
    // Safety: each pointer and its count are those of a slice, and the slice that is written overlaps no other.
    returned_of(unsafe {
        yadzvego_begin(
            n,
            s,
            limit,
            start.as_ptr(),
            start.len(),
            max_step,
            area.as_mut_ptr(),
            area.len(),
        )
    })
}

/// Answers the open question with rows, 2 (m + s) (n + 1) ends: the constraints' values, their slopes row by row, then
/// the sum's. Each reply has an `m` of its own, since a stop is a constraint only while the parts meet.
pub fn reply(run: Run, area: &mut [f64], m: usize, rows: &[f64]) -> Returned {
    // Safety: as in `begin`.
    returned_of(unsafe {
        yadzvego_reply(
            run,
            area.as_mut_ptr(),
            area.len(),
            m,
            rows.as_ptr(),
            rows.len(),
        )
    })
}

/// Answers the open question with none: the point cannot be evaluated.
pub fn reply_none(run: Run, area: &mut [f64]) -> Returned {
    // Safety: as in `begin`.
    returned_of(unsafe { yadzvego_reply_none(run, area.as_mut_ptr(), area.len()) })
}

/// The asked point, or the standing one where no question is open: 2 n ends, none for a run or an area that no call
/// leaves.
pub fn point(run: Run, area: &[f64]) -> &[f64] {
    let place = yadzvego_point_place(run, area.len());
    &area[place..place + yadzvego_point_length(run, area.len())]
}
