//! The area after a call: which slots are in use, what they hold, and +0 everywhere else.

use crate::archive::Run;
use crate::runs::rattle::AREA;
use crate::runs::rust::{History, evaluated};
use crate::words::words;
use geop_core_math::scalars::Scalar;
use geop_core_math::solvers::least_squares::norm;

/// Where a slot begins, and how many numbers it has.
type Slot = (usize, usize);

const STANDING: Slot = (0, 24);
const LANDED: Slot = (24, 24);
const ASKED: Slot = (48, 24);
const STANDING_ROWS: Slot = (72, 936);
const LANDED_ROWS: Slot = (1008, 936);
const STEP: Slot = (1944, 24);
const MULTIPLIERS: Slot = (1968, 24);
const CURVATURE: Slot = (1992, 288);
const FILTER: Slot = (2280, 800);
const SPARE: Slot = (3080, 4920);

const OVER: u8 = 3;

/// How many numbers of each slot are used after a call that left this run.
fn used(run: &Run) -> [(Slot, usize); 10] {
    let (n, s) = (run.n, run.s);
    let rows = |m: usize| 2 * (m + s) * (n + 1);
    let open = run.phase != OVER;
    let tried = run.phase == 1 || run.phase == 2;
    let corrected = run.phase == 2;
    let of = |in_use: bool, count: usize| if in_use { count } else { 0 };
    [
        (STANDING, 2 * n),
        (LANDED, of(corrected, 2 * n)),
        (ASKED, of(open, 2 * n)),
        (STANDING_ROWS, of(tried, rows(run.standing_m))),
        (LANDED_ROWS, of(corrected, rows(run.landed_m))),
        (STEP, of(tried, 2 * n)),
        (MULTIPLIERS, of(tried, 2 * run.standing_m)),
        (CURVATURE, of(tried, 2 * n * n)),
        (FILTER, of(tried, 4 * run.iterations)),
        (SPARE, 0),
    ]
}

/// Whether all that is not in use is +0.
pub fn is_canonical(run: &Run, area: &[f64]) -> bool {
    area.len() == AREA
        && used(run).iter().all(|&((base, size), count)| {
            let unused = &area[base + count..base + size];
            unused.iter().all(|x| x.to_bits() == 0)
        })
}

/// The sum and the violation of each point that stood before, in order.
#[derive(Default)]
pub struct Stood {
    standing: usize,
    pairs: Vec<Scalar>,
}

impl Stood {
    /// Where another question's point stands now.
    pub fn stands(&mut self, history: &History, standing: usize) {
        if standing != self.standing {
            let rows = history.rows(self.standing).expect("what stands has rows");
            let e = evaluated(history.sizes, rows);
            let violation = norm(&e.constraints.values).expect("it was worked out in the run");
            self.pairs.extend([e.sum.squared(&[]), violation]);
            self.standing = standing;
        }
    }
}

/// What is wrong with the area after a call that left an open question or an end: of the points and rows that the
/// caller knows, and of the filter.
pub fn fault(run: &Run, area: &[f64], history: &History, stood: &Stood) -> Option<&'static str> {
    if !is_canonical(run, area) {
        return Some("the area is not canonical");
    }
    let holds =
        |(base, _): Slot, expected: &[u64]| words(&area[base..base + expected.len()]) == expected;
    // An answer's numbers, and its m, which is kept in the state.
    let holds_rows = |slot: Slot, question: usize, m: usize| {
        let rows = history.rows(question);
        rows.is_some_and(|rows| rows.m == m && holds(slot, &words(&rows.numbers)))
    };
    if !holds(STANDING, history.point(run.standing)) {
        return Some("the standing point is another");
    }
    if run.phase == 0 || run.phase == OVER {
        let none = run.standing_m == 0 && run.landed_m == 0;
        return (!none).then_some("counts of rows that are not in use are kept");
    }
    if run.phase == 1 && run.landed_m != 0 {
        return Some("a count of landed rows is kept while none are in use");
    }
    if !holds_rows(STANDING_ROWS, run.standing, run.standing_m) {
        return Some("the standing rows are others");
    }
    let filter: Vec<f64> = stood.pairs.iter().flat_map(|x| [x.lo, x.hi]).collect();
    if filter.len() != 4 * run.iterations || !holds(FILTER, &words(&filter)) {
        return Some("the filter is another");
    }
    if run.phase == 2 {
        if !holds(LANDED, history.point(run.landed)) {
            return Some("the landed point is another");
        }
        if !holds_rows(LANDED_ROWS, run.landed, run.landed_m) {
            return Some("the landed rows are others");
        }
    }
    None
}
