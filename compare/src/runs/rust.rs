//! A run of the Rust: what `minimize` asks, is answered, and ends with. The kinds of the questions and the standing
//! numbers are told by the edits of compare/prepare.py.

use crate::interval::functions::number_of;
use crate::run::pieces::{Call, evaluation, flat};
use crate::run::rust::polled;
use crate::runs::answers::{Answer, Finish, Moment, Question};
use crate::runs::problem::{Problem, Reply, Rows, Sizes};
use crate::words::words;
use geop_core_math::geop_error::GeopResult;
use geop_core_math::scalars::Scalar;
use geop_core_math::solvers::least_squares::{
    Euclidean, Evaluation, Options, Outcome, Rejection, Stop, minimize,
};
use geop_core_math::trace::{self, Event};
use std::cell::RefCell;

/// A run from its beginning to its end, or to where it was left. The answer to the beginning comes first, then one for
/// each reply.
pub struct History {
    pub sizes: Sizes,
    pub max_step: Scalar,
    pub start: Vec<f64>,
    pub replies: Vec<Reply>,
    pub answers: Vec<Answer>,
    pub events: Vec<Event>,
    pub source: &'static str,
}

impl History {
    pub fn last(&self) -> &Answer {
        self.answers.last().expect("an answer to the beginning")
    }

    /// Whether it has ended.
    pub fn is_over(&self) -> bool {
        !matches!(self.last(), Answer::Question(_))
    }

    /// The rows that were answered to a question.
    pub fn rows(&self, question: usize) -> Option<&Rows> {
        self.replies.get(question)?.as_ref()
    }

    /// The greatest number of constraint rows that an answer has.
    pub fn most_constraints(&self) -> usize {
        let counts = self.replies.iter().flatten().map(|rows| rows.m);
        counts.max().unwrap_or(0)
    }

    /// The point of a question.
    pub fn point(&self, question: usize) -> &[u64] {
        match self.answers.get(question) {
            Some(Answer::Question(asked)) => &asked.point,
            _ => &[],
        }
    }
}

pub fn evaluated(sizes: Sizes, rows: &Rows) -> Evaluation {
    let Sizes { n, s, .. } = sizes;
    let call = Call {
        n,
        m: rows.m,
        s,
        ..Call::default()
    };
    evaluation(&call, &rows.numbers)
}

/// What the events told so far come to.
#[derive(Default)]
struct Told {
    questions: Vec<(u8, usize)>,
    landed: usize,
    standing: usize,
    iterations: usize,
    turned_down: usize,
}

fn told(events: &[Event]) -> Told {
    let mut told = Told::default();
    for event in events {
        let kind = match event {
            Event::Start => Some(0),
            Event::Trial => Some(1),
            Event::Correction => Some(2),
            _ => None,
        };
        if let Some(kind) = kind {
            told.questions.push((kind, told.standing));
        }
        match event {
            Event::Start | Event::Trial | Event::Kept => told.landed = told.questions.len() - 1,
            Event::Stands => {
                told.standing = told.landed;
                told.iterations += 1;
            }
            Event::TurnedDown => told.turned_down += 1,
            _ => {}
        }
    }
    told
}

fn rejection(rejected: Option<Rejection>) -> u8 {
    match rejected {
        None => 0,
        Some(Rejection::NotPositive) => 1,
        Some(Rejection::Infeasible) => 2,
        Some(Rejection::Unresolved) => 3,
        Some(Rejection::NotLower) => 4,
    }
}

/// The stop's number, its rejection, and the counts that Flat tells.
fn stopped(stop: Stop) -> (u8, u8, usize, usize) {
    match stop {
        Stop::Infeasible => (0, 0, 0, 0),
        Stop::NoChange { rejected } => (1, rejection(rejected), 0, 0),
        Stop::Undecided => (2, 0, 0, 0),
        Stop::Flat {
            independent,
            constraints,
        } => (3, 0, independent, constraints),
        Stop::Damped { rejected } => (4, rejection(rejected), 0, 0),
        Stop::Budget => (5, 0, 0, 0),
    }
}

fn ended(end: GeopResult<Outcome<Vec<Scalar>>>, told: &Told, standing_point: &[u64]) -> Answer {
    match end {
        Ok(outcome) => {
            let (stop, rejected, independent, constraints) = stopped(outcome.stop);
            Answer::Finish(Finish {
                stop,
                rejected,
                independent,
                constraints,
                iterations: outcome.iterations,
                turned_down: outcome.turned_down,
                standing: told.standing,
                point: words(&flat(&outcome.x)),
            })
        }
        Err(error) => Answer::Error(
            number_of(&error),
            Moment {
                iterations: told.iterations,
                turned_down: told.turned_down,
                standing: told.standing,
                point: standing_point.to_vec(),
            },
        ),
    }
}

/// The Rust's run of a problem.
pub fn history_of(problem: Problem) -> History {
    let Problem {
        sizes,
        max_step,
        start,
        source,
    } = problem;
    let name = source.name();
    let points: RefCell<Vec<Vec<u64>>> = RefCell::default();
    let replies: RefCell<Vec<Reply>> = RefCell::default();
    let source = RefCell::new(source);
    let evaluate = async |point: &Vec<Scalar>| -> Option<Evaluation> {
        points.borrow_mut().push(words(&flat(point)));
        if source.borrow().leaves() {
            std::future::pending::<()>().await;
        }
        let reply = source.borrow_mut().reply(point);
        let evaluation = reply.as_ref().map(|rows| evaluated(sizes, rows));
        replies.borrow_mut().push(reply);
        evaluation
    };
    let options = Options {
        max_iterations: sizes.limit,
        max_step,
    };
    trace::told();
    let end = polled(minimize(&Euclidean, evaluate, start.clone(), options));
    let events = trace::told();
    let told = told(&events);
    let (points, replies) = (points.into_inner(), replies.into_inner());
    let last = end.map(|end| ended(end, &told, &points[told.standing]));
    let questions = points.into_iter().zip(&told.questions).enumerate();
    let mut answers: Vec<Answer> = questions
        .map(|(number, (point, &(kind, standing)))| {
            Answer::Question(Question {
                number,
                kind,
                standing,
                point,
            })
        })
        .collect();
    answers.extend(last);
    History {
        sizes,
        max_step,
        start: flat(&start),
        replies,
        answers,
        events,
        source: name,
    }
}
