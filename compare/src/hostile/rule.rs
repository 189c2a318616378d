//! The refusals (PROTOCOL, Refusals), worked out from the text: which number a call gets, before anything is done.

use crate::archive::Run;
use crate::runs::problem::{MOST, Rows, Sizes, in_domain};
use crate::runs::rattle::AREA;
use geop_core_math::scalars::Scalar;

const OVER: u8 = 3;

/// A count above its limit.
fn too_many(sizes: Sizes) -> bool {
    sizes.n > 12 || sizes.s > 24 || sizes.limit > 200
}

/// Whether no call leaves such a run: number 4, apart from a run that is over.
pub fn altered(run: &Run) -> bool {
    let sizes = Sizes {
        n: run.n,
        s: run.s,
        limit: run.limit,
    };
    // A number that no case of its enum has.
    if run.phase > OVER || run.rejected > 4 || run.last > 1 {
        return true;
    }
    let [iterations, limit] = [run.iterations, run.limit].map(|count| count as u128);
    let open = run.phase != OVER;
    let underway = run.phase == 1 || run.phase == 2;
    too_many(sizes)
        || run.standing_m > 12
        || run.landed_m > 12
        || iterations > limit
        || (underway && iterations == limit)
        || run.turned_down as u128 > 1100 * (iterations + 1)
        || run.question as u128 > 5500 * limit
        || run.corrections > 4
        || (open && !(0.0 < run.mu.lo && run.mu.lo <= run.mu.hi && run.mu.hi < f64::INFINITY))
}

/// The number that refuses a reply with these rows, or with none; nothing where it is accepted.
pub fn refusal(run: &Run, area: usize, rows: Option<&Rows>) -> Option<u64> {
    if altered(run) || run.phase == OVER {
        return Some(4);
    }
    if rows.is_some_and(|rows| rows.m > 12) {
        return Some(1);
    }
    let count = |rows: &Rows| 2 * (rows.m + run.s) * (run.n + 1);
    if area != AREA || rows.is_some_and(|rows| rows.numbers.len() != count(rows)) {
        return Some(2);
    }
    match rows {
        Some(rows) if !in_domain(&rows.numbers) => Some(3),
        _ => None,
    }
}

/// The number that refuses a begin.
pub fn begin_refusal(sizes: Sizes, start: &[f64], max_step: Scalar, area: usize) -> Option<u64> {
    if too_many(sizes) {
        return Some(1);
    }
    if start.len() != 2 * sizes.n || area != AREA {
        return Some(2);
    }
    let step = 0.0 < max_step.lo && max_step.lo <= max_step.hi && max_step.hi <= MOST;
    if !in_domain(start) || !step {
        return Some(3);
    }
    None
}

/// Where the point begins, and how many numbers it has.
pub fn point(run: &Run, area: usize) -> (usize, usize) {
    if altered(run) || area != AREA {
        return (0, 0);
    }
    (if run.phase == OVER { 0 } else { 48 }, 2 * run.n)
}
