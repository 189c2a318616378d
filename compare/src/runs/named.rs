//! Problems by name: the known answers, what is rare at random, and the traps. Together they show all
//! that `tally::expected` lists.

use crate::runs::problem::{Problem, Reply, Rows, Sizes, Source};
use geop_core_math::scalars::Scalar;

fn power(e: i32) -> f64 {
    // In two factors, since 2^-1074 is no power of a normal number.
    2f64.powi(e / 2) * 2f64.powi(e - e / 2)
}

/// Sharp.
fn at(x: f64) -> Scalar {
    Scalar::degenerate(x)
}

fn ends(lo: f64, hi: f64) -> Scalar {
    Scalar { lo, hi }
}

/// The numbers of rows, in the area's order, or none.
type Numbers = Option<Vec<f64>>;

/// Rows of sharp numbers.
fn rows(numbers: &[f64]) -> Numbers {
    Some(numbers.iter().flat_map(|&x| [x, x]).collect())
}

/// Rows of intervals.
fn wide(scalars: &[Scalar]) -> Numbers {
    Some(scalars.iter().flat_map(|x| [x.lo, x.hi]).collect())
}

/// Whose replies bring any number of constraint rows each.
fn changing(sizes: [usize; 3], max_step: f64, start: &[Scalar], replies: Vec<Reply>) -> Problem {
    let [n, s, limit] = sizes;
    Problem {
        sizes: Sizes { n, s, limit },
        max_step: at(max_step),
        start: start.to_vec(),
        source: Source::given(replies),
    }
}

/// Whose replies all have m constraint rows.
fn problem(sizes: [usize; 4], max_step: f64, start: &[Scalar], replies: Vec<Numbers>) -> Problem {
    let [n, m, s, limit] = sizes;
    let replies = replies.into_iter();
    let replies = replies.map(|numbers| numbers.map(|numbers| Rows { m, numbers }));
    changing([n, s, limit], max_step, start, replies.collect())
}

/// The known answers P11 to P13, and the ends that need few replies.
fn known() -> Vec<Problem> {
    let zero = [at(0.0)];
    vec![
        problem([1, 0, 1, 0], 1.0, &zero, vec![None]),
        problem([1, 0, 1, 0], 1.0, &zero, vec![rows(&[1.0, 1.0])]),
        problem([0, 0, 0, 5], 1.0, &[], vec![rows(&[])]),
        problem([0, 12, 24, 5], 1.0, &[], vec![rows(&[1.0; 36])]),
        problem([12, 0, 0, 200], 1.0, &[at(1.0); 12], vec![rows(&[])]),
        // A step that stays inside a wide start.
        problem(
            [1, 0, 1, 5],
            9.0,
            &[ends(-4.0, 4.0)],
            vec![rows(&[1.0, 1.0])],
        ),
        // The start at minus zero: a variable that does not move is sharpened by the first trial.
        problem(
            [2, 0, 1, 5],
            9.0,
            &[ends(-power(-1074), 0.0), at(3.0)],
            vec![rows(&[1.0, 0.0, 1.0]), rows(&[0.0, 0.0, 1.0])],
        ),
        // Never answered: the radius is cut until nothing changes.
        problem([1, 0, 1, 5], 9.0, &[at(8.0)], vec![rows(&[1.0, 1.0])]),
        // Never lower.
        problem([1, 0, 1, 5], 9.0, &[at(8.0)], vec![rows(&[1.0, 1.0]); 99]),
    ]
}

/// Refusals by arithmetic.
fn refused() -> Vec<Problem> {
    let tiny = power(-1023);
    let two = [at(0.0), at(0.0)];
    vec![
        problem(
            [2, 2, 0, 9],
            1.0,
            &two,
            vec![rows(&[1.0, 1.0, 1.0, 1.0, tiny, 0.0])],
        ),
        problem(
            [1, 2, 0, 9],
            1.0,
            &[at(0.0)],
            vec![rows(&[1.0, 1.0, power(-1024), 0.0])],
        ),
        problem(
            [2, 3, 0, 9],
            1.0,
            &two,
            vec![rows(&[1.0, 1.0, 1.0, 1.0, 1.0, tiny, 0.0, 0.0, 0.0])],
        ),
        problem(
            [2, 3, 0, 9],
            1.0,
            &two,
            vec![rows(&[1.0, 1.0, 1.0, 1.0, 1.0, 0.0, 0.0, tiny, 0.0])],
        ),
    ]
}

/// Ends that are rare at random.
fn rare() -> Vec<Problem> {
    let most = power(400);
    // The curvature at the threshold of what the smallest number can tell: too small at first, positive with more
    // damping.
    let root = 3f64.sqrt() * power(-537);
    vec![
        // The curvature learned overflows: 518 steps that are not positive.
        problem(
            [1, 0, 1, 9],
            most,
            &[at(0.0)],
            vec![rows(&[-most, most]), rows(&[-power(397), -most])],
        ),
        problem(
            [1, 0, 1, 9],
            most,
            &[at(power(300))],
            vec![rows(&[power(-400), root])],
        ),
        // Cut below what the model tells; then the damping alone makes it too short to change the point.
        problem(
            [1, 0, 1, 9],
            100.0,
            &[at(power(53) + 1024.0)],
            vec![wide(&[ends(0.76, 1.26), at(1.0)]), None],
        ),
        // The longest step is below what the model tells.
        problem(
            [1, 0, 1, 9],
            power(-1074),
            &[at(0.0)],
            vec![wide(&[ends(1.0, 1.5), at(1.0)])],
        ),
        // From zero, and never answered: every length changes the point.
        problem([1, 0, 1, 9], 9.0, &[at(0.0)], vec![rows(&[1.0, 1.0])]),
    ]
}

/// Traps: what looks right on most drawings.
fn traps() -> Vec<Problem> {
    let about = |x: f64| ends(x - 1.0, x + 1.0);
    let (one, two) = ([at(8.0)], [at(0.0), at(0.0)]);
    let nearly = 1.0 - power(-51);
    vec![
        // The first damping is no sharp number: sharp, it would move this trial's last places.
        problem(
            [2, 1, 0, 2],
            9.0,
            &two,
            vec![rows(&[5.0 / 7.0, 1.0 / 7.0, 8.0 / 7.0]), rows(&[0.0; 3])],
        ),
        // A zero is added to each value before the squares are summed: without it the third point would be lower than
        // the first, which stood before.
        problem(
            [1, 1, 1, 2],
            9.0,
            &one,
            vec![
                rows(&[1.0, 1.0, 1.0, 1.0]),
                rows(&[0.5, 1.0, 2.0, 1.0]),
                rows(&[1.0, 1.0, nearly, 1.0]),
                None,
                rows(&[0.25, 1.0, 0.5, 1.0]),
            ],
        ),
        // The last point is lower than the two that stood just before, but not than the first: the filter holds them
        // all.
        problem(
            [1, 1, 1, 3],
            9.0,
            &one,
            vec![
                rows(&[1.0, 1.0, 1.0, 1.0]),
                rows(&[0.5, 1.0, 3.0, 1.0]),
                rows(&[0.5, 1.0, 2.5, 1.0]),
                rows(&[1.0, 1.0, 1.5, 1.0]),
                None,
                rows(&[0.25, 1.0, 0.5, 1.0]),
            ],
        ),
        // Undecided with no step before is no stop: the step is turned down.
        problem(
            [1, 0, 1, 9],
            9.0,
            &one,
            vec![
                wide(&[about(3.0), at(1.0)]),
                wide(&[ends(-4.0, 4.0), at(1.0)]),
            ],
        ),
        // Undecided after a step, and not contracting: a stop.
        problem(
            [1, 0, 1, 9],
            9.0,
            &one,
            vec![
                wide(&[about(8.0), at(1.0)]),
                wide(&[about(4.0), at(1.0)]),
                wide(&[ends(-5.0, 5.0), at(1.0)]),
            ],
        ),
        // Undecided after a step, and contracting: taken.
        problem(
            [1, 0, 1, 9],
            9.0,
            &one,
            vec![
                wide(&[about(8.0), at(1.0)]),
                wide(&[about(4.0), at(4.0)]),
                wide(&[ends(-5.0, 5.0), at(4.0)]),
            ],
        ),
        // The retry without curvature is a turn-down but no damping: the next proposal is still the first, and
        // undecided stops.
        problem(
            [1, 0, 1, 9],
            9.0,
            &one,
            vec![
                rows(&[4.0, 1.0]),
                rows(&[1.0, 0.25]),
                rows(&[3.0, 1.0]),
                wide(&[ends(-5.0, 5.0), at(0.25)]),
            ],
        ),
    ]
}

/// A trial that leaves the constraint, and so many corrections that come nearer, then one more reply; then a step that
/// is taken.
fn corrected(kept: usize, then: Numbers) -> Problem {
    let mut replies = vec![rows(&[1.0, 1.0]), rows(&[16.0, 1.0])];
    replies.extend((0..kept).map(|i| rows(&[power(3 - 2 * i as i32), 1.0])));
    replies.push(then);
    replies.extend([rows(&[power(-9), 1.0]), rows(&[power(-19), 1.0])]);
    problem([1, 1, 0, 2], 9.0, &[at(8.0)], replies)
}

fn corrections() -> Vec<Problem> {
    let mut all = Vec::new();
    for kept in 0..=4 {
        all.push(corrected(kept, None));
        all.push(corrected(kept, rows(&[32.0, 1.0])));
    }
    // The second correction would not change the point.
    let far = power(60);
    let replies = [power(57), power(59), 1.0].map(|value| rows(&[value, 1.0]));
    all.push(problem([1, 1, 0, 2], far, &[at(far)], replies.into()));
    all
}

/// Where two floats are 2 apart: few turn-downs make a step too short to change the point.
fn coarse() -> Vec<Problem> {
    let start = [at(power(53) + 1024.0)];
    let lower = rows(&[4.0, 1.0]);
    vec![
        problem([1, 0, 1, 9], 100.0, &start, vec![lower.clone(), None, None]),
        problem([1, 0, 1, 9], 100.0, &start, vec![lower; 9]),
    ]
}

/// Stops that come and go: the sum pulls towards a place, and a row that is not always answered is in the way.
fn stops() -> Vec<Problem> {
    let with = |m: usize, numbers: &[f64]| rows(numbers).map(|numbers| Rows { m, numbers });
    let pull = |value: f64| with(0, &[value, 1.0]);
    let stopped = |value: f64, pull: f64| with(1, &[value, 1.0, pull, 1.0]);
    let two = |value: f64, pull: f64| with(2, &[value, -value, 1.0, 1.0, pull, 1.0]);
    let start = [at(8.0)];
    vec![
        // None, then one, then none again: steps are taken with more and with fewer.
        changing(
            [1, 1, 9],
            9.0,
            &start,
            vec![
                pull(8.0),
                stopped(0.5, 4.0),
                pull(2.0),
                stopped(0.25, 1.0),
                None,
            ],
        ),
        // Landed rows that are more than the standing ones: their multipliers are those of the standing rows.
        changing(
            [1, 1, 9],
            9.0,
            &start,
            vec![
                stopped(1.0, 8.0),
                two(0.5, 4.0),
                two(0.25, 2.0),
                stopped(0.125, 1.0),
            ],
        ),
        // Within corrections: a trial that leaves its constraint, and corrections of one and of two rows.
        changing(
            [1, 1, 9],
            9.0,
            &start,
            vec![
                stopped(1.0, 4.0),
                stopped(16.0, 1.0),
                two(4.0, 1.0),
                stopped(1.0, 1.0),
                pull(0.5),
            ],
        ),
        // Flat names the standing rows: two of them say the same.
        changing(
            [1, 0, 9],
            9.0,
            &start,
            vec![
                with(1, &[1.0, 1.0]),
                with(2, &[0.0, 0.0, 1.0, 1.0]),
                with(1, &[0.0, 1.0]),
            ],
        ),
    ]
}

pub fn problems() -> Vec<Problem> {
    let mut all = known();
    all.extend(refused());
    all.extend(rare());
    all.extend(traps());
    all.extend(corrections());
    all.extend(coarse());
    all.extend(stops());
    all
}
