//! Runs whose constraints come and go: a drawer's stop is one only while the parts meet, so each evaluation may have
//! another number of them.

use std::cell::RefCell;
use yadzvego::scalars::Scalar;
use yadzvego::slopes::mismatches;
use yadzvego::solvers::least_squares::{Evaluation, Options, Outcome, Rows, Stop};
use yadzvego::{AREA, Event, begin, minimize, point, reply};

/// Where each rail of a runner stops.
const STOP: i64 = 200;

fn whole(v: i64) -> Scalar {
    Scalar::from_i64(v)
}

/// Rails that are drawn out of each other, together towards `target`. A buffer of `length` before a wall stops each at
/// [`STOP`]: it is a constraint where less than 1 is between it and its rail.
fn rails(at: &[Scalar], length: i64, target: i64) -> Evaluation {
    let mut e = Evaluation::default();
    for (i, &x) in at.iter().enumerate() {
        let room = whole(STOP + length).sub(x);
        if room.definitely_less(whole(length + 1)) {
            let mut slopes = vec![Scalar::ZERO; at.len()];
            slopes[i] = whole(-2).mul(room);
            let value = room.mul(room).sub(whole(length * length));
            e.constraints.push(value, slopes);
        }
    }
    let front = at.iter().fold(Scalar::ZERO, |sum, x| sum.add(*x));
    let slopes = vec![Scalar::ONE; at.len()];
    e.sum.push(front.sub(whole(target)), slopes);
    e
}

/// How a run from `start` ends, and how many constraints it has at each point that is asked.
fn run(
    evaluate: impl Fn(&Vec<Scalar>) -> Evaluation,
    start: &[i64],
    max_step: i64,
) -> (Outcome<Vec<Scalar>>, Vec<usize>) {
    let counts = RefCell::new(Vec::new());
    let counted = |at: &Vec<Scalar>| {
        let e = evaluate(at);
        counts.borrow_mut().push(e.constraints.values.len());
        Some(e)
    };
    let options = Options {
        max_iterations: 50,
        max_step: whole(max_step),
    };
    let start = start.iter().map(|&v| whole(v)).collect();
    let outcome = minimize(counted, start, options).expect("the run is not refused");
    (outcome, counts.into_inner())
}

fn assert_stopped(outcome: &Outcome<Vec<Scalar>>) {
    let met = outcome.x.len();
    let flat = Stop::Flat {
        independent: met,
        constraints: met,
    };
    assert_eq!(outcome.stop, flat);
    for x in &outcome.x {
        assert!((x.to_f64() - STOP as f64).abs() < 1e-12, "{}", x.to_f64());
    }
}

/// One rail from far off: no constraint, then its stop, which a correction leaves again.
#[test]
fn a_stop_that_is_met_and_left() {
    let (outcome, counts) = run(|at| rails(at, 300, 250), &[0], 75);
    assert_stopped(&outcome);
    assert_eq!(counts, [0, 0, 0, 1, 0, 1, 0, 1, 1, 1, 1, 1]);
}

/// Two rails, of which one is out before the other: none, one or both stops are met.
#[test]
fn a_stop_after_the_other() {
    let (outcome, counts) = run(|at| rails(at, 600, 500), &[60, 0], 100);
    assert_stopped(&outcome);
    assert_eq!(counts, [0, 0, 1, 1, 1, 1, 2, 1, 2, 1, 2, 2, 2, 2, 2]);
}

/// Two rails from beyond their stops: both are met at the start, then none is.
#[test]
fn stops_at_the_start() {
    let (outcome, counts) = run(|at| rails(at, 300, 500), &[280, 280], 150);
    assert_stopped(&outcome);
    assert_eq!(counts, [2, 0, 2, 0, 2, 0, 2, 2, 2, 2, 2]);
}

fn ends(rows: &Rows) -> impl Iterator<Item = f64> {
    let all = rows.values.iter().chain(rows.jacobian.iter().flatten());
    all.flat_map(|v| [v.lo, v.hi])
}

/// The calls with the m of each evaluation lead where `minimize` does, over the same points.
#[test]
fn the_calls_and_minimize_agree() {
    let asked = RefCell::new(Vec::new());
    let told = |at: &Vec<Scalar>| {
        asked.borrow_mut().push(at.clone());
        rails(at, 600, 500)
    };
    let (outcome, counts) = run(told, &[60, 0], 100);

    let mut area = vec![0.0; AREA];
    let mut now = begin(2, 1, 50, &[60.0, 60.0, 0.0, 0.0], whole(100), &mut area);
    let at = |ends: &[f64]| -> Vec<Scalar> {
        let pairs = ends.chunks_exact(2);
        pairs.map(|end| Scalar::new(end[0], end[1])).collect()
    };
    while let Event::Question { number, .. } = now.event {
        let x = at(point(now.run, &area));
        assert_eq!(x, asked.borrow()[number]);
        let e = rails(&x, 600, 500);
        let rows: Vec<f64> = ends(&e.constraints).chain(ends(&e.sum)).collect();
        now = reply(now.run, &mut area, counts[number], &rows);
    }
    let finish = Event::Finish {
        stop: outcome.stop,
        iterations: outcome.iterations,
        turned_down: outcome.turned_down,
        standing: counts.len() - 1,
    };
    assert_eq!((now.event, at(point(now.run, &area))), (finish, outcome.x));
}

/// Beside a stop the rows of the three points are not the same ones, so they are not compared.
#[test]
fn slopes_beside_a_stop() {
    let found = |at: [f64; 2]| {
        let wrong = |at: &Vec<Scalar>| {
            let mut e = rails(at, 600, 500);
            for row in &mut e.constraints.jacobian {
                row[0] = row[0].add(Scalar::ONE);
            }
            Some(e)
        };
        let at = at.map(Scalar::from_f64);
        let rows = mismatches(wrong, &at, 0.5, 1e-6).into_iter();
        rows.map(|found| (found.row, found.variable))
            .collect::<Vec<_>>()
    };
    assert_eq!(found([100.0, 100.0]), []);
    assert_eq!(found([210.0, 100.0]), [(0, 0)]);
    assert_eq!(found([210.0, 210.0]), [(0, 0), (1, 0)]);
    assert_eq!(found([199.25, 210.0]), []);
}
