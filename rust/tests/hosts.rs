//! What comes back where a host does not keep to the calls: the refusal's number, with run and area as they were.

use yadzvego::geop_error::GeopError::{self, NoOpenQuestion, OutsideDomain, TooMany, WrongLength};
use yadzvego::scalars::Scalar;
use yadzvego::{AREA, Event, Run, begin, point, reply, reply_none};

const START: [f64; 2] = [3.0, 3.0];

/// One constraint and one sum row.
const ROWS: [f64; 8] = [1.0, 1.0, 2.0, 2.0, 5.0, 5.0, 1.0, 1.0];

/// A run of one variable and one sum row with its first question open.
fn begun(area: &mut [f64]) -> Run {
    let returned = begin(1, 1, 5, &START, Scalar::ONE, area);
    assert!(matches!(returned.event, Event::Question { number: 0, .. }));
    returned.run
}

fn assert_refused(run: Run, area: &[f64], m: usize, rows: &[f64], why: GeopError) {
    let mut after = area.to_vec();
    let returned = reply(run, &mut after, m, rows);
    assert_eq!((returned.run, returned.event), (run, Event::Refused(why)));
    assert_eq!(after, area);
}

#[test]
fn wrong_lengths() {
    let mut area = vec![0.0; AREA];
    let run = begun(&mut area);
    for rows in [&ROWS[..7], &[], &[1.0; 9], &[1.0; 8000]] {
        assert_refused(run, &area, 1, rows, WrongLength);
    }
    for m in [0, 2, 12] {
        assert_refused(run, &area, m, &ROWS, WrongLength);
    }
    for length in [0, 1, AREA - 1, AREA + 1] {
        let other = vec![0.0; length];
        assert_refused(run, &other, 1, &ROWS, WrongLength);
        assert_eq!(point(run, &other), []);
        let returned = begin(1, 1, 5, &START, Scalar::ONE, &mut vec![0.0; length]);
        assert_eq!(returned.event, Event::Refused(WrongLength));
    }
    for start in [&START[..1], &[], &[0.0; 3]] {
        let returned = begin(1, 1, 5, start, Scalar::ONE, &mut area);
        assert_eq!(returned.event, Event::Refused(WrongLength));
    }
    let unread = Run {
        last_length: Scalar::ONE,
        ..run
    };
    assert_refused(unread, &area, 1, &ROWS[..7], WrongLength);
    assert_eq!(point(run, &area), START);
}

#[test]
fn counts_and_ends_beyond_their_limits() {
    let mut area = vec![0.0; AREA];
    for (n, s, limit) in [(13, 1, 5), (1, 25, 5), (1, 1, 201)] {
        let returned = begin(n, s, limit, &START, Scalar::ONE, &mut area);
        assert_eq!(returned.event, Event::Refused(TooMany));
        assert_refused(returned.run, &area, 1, &ROWS, NoOpenQuestion);
    }
    let run = begun(&mut area);
    for m in [13, 14, usize::MAX / 4, usize::MAX] {
        assert_refused(run, &area, m, &[1.0; 56], TooMany);
    }
    for end in [f64::NAN, f64::INFINITY, 1e121, -1.0] {
        let rows = [1.0, end, 2.0, 2.0, 5.0, 5.0, 1.0, 1.0];
        assert_refused(run, &area, 1, &rows, OutsideDomain);
    }
}

/// A run that is over, then this reply's m, then lengths by it, then ends; each refusal leaves the question open for a
/// reply with another m.
#[test]
fn the_order_of_refusals() {
    let mut area = vec![0.0; AREA];
    let run = begun(&mut area);
    let over = Run { phase: 3, ..run };
    assert_refused(over, &area, 13, &[f64::NAN; 7], NoOpenQuestion);
    assert_refused(run, &area[1..], 13, &[f64::NAN; 7], TooMany);
    assert_refused(run, &area[1..], 12, &[f64::NAN; 52], WrongLength);
    assert_refused(run, &area, 12, &[f64::NAN; 51], WrongLength);
    assert_refused(run, &area, 12, &[f64::NAN; 52], OutsideDomain);
    for (m, ends) in [(0, 4), (1, 8), (12, 52)] {
        let returned = reply(run, &mut area.clone(), m, &vec![1.0; ends]);
        assert!(matches!(returned.event, Event::Question { number: 1, .. }));
        assert_eq!((returned.run.standing_m, returned.run.landed_m), (m, 0));
    }
}

#[test]
fn altered_runs() {
    let mut area = vec![0.0; AREA];
    let run = begun(&mut area);
    let altered = [
        Run { phase: 3, ..run },
        Run { phase: 4, ..run },
        Run { rejected: 5, ..run },
        Run { last: 2, ..run },
        Run { n: 13, ..run },
        Run {
            n: usize::MAX,
            ..run
        },
        Run {
            corrections: 5,
            ..run
        },
        Run {
            standing_m: 13,
            ..run
        },
        Run {
            landed_m: usize::MAX,
            ..run
        },
        Run {
            iterations: 6,
            ..run
        },
        Run {
            turned_down: usize::MAX,
            ..run
        },
        Run {
            mu: Scalar::ZERO,
            ..run
        },
    ];
    for run in altered {
        assert_refused(run, &area, 1, &ROWS, NoOpenQuestion);
        let returned = reply_none(run, &mut area.clone());
        assert_eq!(returned.event, Event::Refused(NoOpenQuestion));
    }
    assert_eq!(point(Run { phase: 4, ..run }, &area), []);
}

/// A reply after the end, and the same reply twice with the run as it was before the first.
#[test]
fn replies_out_of_turn() {
    let mut area = vec![0.0; AREA];
    let run = begun(&mut area);
    let over = reply_none(run, &mut area);
    assert!(matches!(over.event, Event::Finish { .. }));
    assert_refused(over.run, &area, 1, &ROWS, NoOpenQuestion);
    assert_eq!(point(over.run, &area), START);
}
