//! `minimize`, both of them, on the fixed list of runs.

use crate::runs::{Listed, Rows, ending, runs, words};
use std::cell::{Cell, RefCell};
use std::future::poll_fn;
use std::pin::pin;
use std::task::{Context, Poll, Waker};
use yadzvego::geop_error::{GeopError, GeopResult};
use yadzvego::minimize;
use yadzvego::scalars::Scalar;
use yadzvego::solvers::least_squares::{self, Euclidean, Evaluation, Options, Outcome, Stop};

fn scalars(ends: &[f64]) -> Vec<Scalar> {
    let pairs = ends.chunks_exact(2);
    pairs.map(|end| Scalar::new(end[0], end[1])).collect()
}

fn ends(x: &[Scalar]) -> Vec<f64> {
    x.iter().flat_map(|v| [v.lo, v.hi]).collect()
}

fn evaluation(run: &Listed, rows: &Rows) -> Evaluation {
    let mut rest = scalars(&rows.ends).into_iter();
    let mut e = Evaluation::default();
    for (rows, count) in [(&mut e.constraints, rows.m), (&mut e.sum, run.s)] {
        rows.values = rest.by_ref().take(count).collect();
        let row = |_| rest.by_ref().take(run.n).collect();
        rows.jacobian = (0..count).map(row).collect();
    }
    e
}

/// The replies that the list does not refuse, and the questions that they answer.
fn accepted(run: &Listed) -> Vec<(&str, &Option<Rows>)> {
    let mut open = run.answers[0].as_str();
    let mut accepted = Vec::new();
    for (rows, answer) in run.replies.iter().zip(&run.answers[1..]) {
        if !["x 1", "x 2", "x 3", "x 4"].contains(&answer.as_str()) {
            accepted.push((open, rows));
            open = answer;
        }
    }
    accepted
}

/// The last answer that is not a refusal of a call alone.
fn ended(run: &Listed) -> &str {
    let ends = |a: &&String| a.starts_with('f') || ["x 5", "x 6"].contains(&a.as_str());
    run.answers.iter().find(ends).expect("the run ends")
}

/// The words of a line behind so many tokens, each after a space.
fn words_behind(line: &str, tokens: usize) -> String {
    line.split(' ')
        .skip(tokens)
        .map(|w| format!(" {w}"))
        .collect()
}

/// Asserts that the outcome is the list's, but for the standing number, which an outcome has not.
fn assert_ended(run: &Listed, outcome: GeopResult<Outcome<Vec<Scalar>>>) {
    let expected = ended(run);
    match outcome {
        Ok(o) => {
            let ending = ending(o.stop, o.iterations, o.turned_down);
            assert!(expected.starts_with(&format!("f {ending} ")), "{expected}");
            assert_eq!(words(&ends(&o.x)), words_behind(expected, 8));
        }
        Err(why) => assert_eq!(format!("x {}", why.number()), expected),
    }
}

/// The runs that begin, each with a closure's work: to hold the asked point to the list's and give its rows.
fn each(made: impl Fn(&Listed, &dyn Fn(&[Scalar]) -> Option<Evaluation>, Options)) {
    let mut made_runs = 0;
    for run in runs().iter().filter(|run| run.answers[0].starts_with('q')) {
        let replies = RefCell::new(accepted(run).into_iter());
        let evaluate = |x: &[Scalar]| {
            let (asked, rows) = replies.borrow_mut().next().expect("a question more");
            assert_eq!(words(&ends(x)), words_behind(asked, 4));
            rows.as_ref().map(|rows| evaluation(run, rows))
        };
        let options = Options {
            max_iterations: run.limit,
            max_step: run.max_step,
        };
        made(run, &evaluate, options);
        assert_eq!(replies.borrow_mut().next(), None, "a question fewer");
        made_runs += 1;
    }
    assert!(made_runs > 190);
}

#[test]
fn runs_end_as_the_list() {
    each(|run, evaluate, options| {
        let outcome = minimize(|x| evaluate(x), scalars(&run.start), options);
        assert_ended(run, outcome);
    });
}

/// A future that is pending once.
async fn later() {
    let waited = Cell::new(false);
    let once = |_: &mut Context| match waited.replace(true) {
        true => Poll::Ready(()),
        false => Poll::Pending,
    };
    poll_fn(once).await
}

fn waited_for<T>(future: impl Future<Output = T>) -> T {
    let mut future = pin!(future);
    loop {
        if let Poll::Ready(value) = future
            .as_mut()
            .poll(&mut Context::from_waker(Waker::noop()))
        {
            return value;
        }
    }
}

#[test]
fn awaited_runs_end_as_the_list() {
    each(|run, evaluate, options| {
        let evaluate = async |x: &Vec<Scalar>| {
            later().await;
            evaluate(x)
        };
        let start = scalars(&run.start);
        let run_made = least_squares::minimize(&Euclidean, evaluate, start, options);
        assert_ended(run, waited_for(run_made));
    });
}

/// The lengths of the constraints' slopes and of the sum rows'.
type Shape<'a> = [&'a [usize]; 2];

fn evaluation_of(shape: Shape) -> Evaluation {
    let mut e = Evaluation::default();
    for (rows, lengths) in [&mut e.constraints, &mut e.sum].into_iter().zip(shape) {
        for &length in lengths {
            rows.push(Scalar::ONE, vec![Scalar::ONE; length]);
        }
    }
    e
}

/// How a run of two variables stops whose rows have this shape at the start, and then that one.
fn stop(first: Shape, then: Shape) -> GeopResult<Stop> {
    let shape = Cell::new(first);
    let evaluate = |_: &Vec<Scalar>| Some(evaluation_of(shape.replace(then)));
    let options = Options {
        max_iterations: 5,
        max_step: Scalar::ONE,
    };
    minimize(evaluate, vec![Scalar::ZERO; 2], options).map(|outcome| outcome.stop)
}

const FIT: Shape = [&[2], &[2, 2]];

/// Rows of other shapes are refused, also where they have the right number of ends altogether.
#[test]
fn other_shapes_are_refused() {
    let refused = Err(GeopError::WrongLength);
    let uneven: [Shape; 2] = [[&[1, 3], &[]], [&[3], &[2, 1]]];
    let other_sums: [Shape; 2] = [[&[2, 2], &[2]], [&[], &[2, 2, 2]]];
    for shape in uneven {
        assert_eq!(stop(shape, shape), refused);
    }
    for shape in [uneven, other_sums].concat() {
        assert_eq!(stop(FIT, shape), refused);
    }
    assert!(stop(FIT, FIT).is_ok());
}

/// Each evaluation may have another number of constraints, to 12; more are refused before any length is.
#[test]
fn other_numbers_of_constraints() {
    let counts = [0, 1, 2, 11, 12];
    for (first, then) in counts.iter().flat_map(|i| counts.map(|j| (*i, j))) {
        let shape = |count| [&[2; 12][..count], &[2, 2]];
        assert!(stop(shape(first), shape(then)).is_ok());
    }
    let many: [Shape; 2] = [[&[2; 13], &[2, 2]], [&[1; 13], &[]]];
    for shape in many {
        assert_eq!(stop(shape, shape), Err(GeopError::TooMany));
        assert_eq!(stop(FIT, shape), Err(GeopError::TooMany));
    }
}
